// Telling, and what is said of it.
import * as talk from "./talk.js";

/** Tells an event, and says what became of it. Where it is refused nothing has changed. */
export async function tell(page, event, words) {
  try {
    const answer = await talk.tell(page.data.id, event);
    if (answer.again) page.say(`${words}: that was told already.`);
    else page.say(answer.waits?.length ? `${words}: kept, and it waits for ${answer.waits.join(", ")}.` : `${words}.`);
  } catch (error) {
    page.say(error.message);
  }
  await page.refresh();
}
