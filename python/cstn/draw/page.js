"use strict";
const search = document.getElementById("search");
const count = document.getElementById("count");
const choice = document.getElementById("choice");
const cases = [...document.querySelectorAll("section.case")];

function show(at) {
  const last = cases.length - 1;
  const number = Math.min(Math.max(at, 0), last);
  cases.forEach((section, place) => { section.hidden = place !== number; });
  choice.selectedIndex = number;
  document.getElementById("before").disabled = number === 0;
  document.getElementById("behind").disabled = number === last;
}

function seek() {
  const wanted = search.value.trim().toLowerCase();
  const fits = (part) => part.textContent.toLowerCase().includes(wanted);
  let found = 0;
  for (const part of document.querySelectorAll("[data-search]")) {
    const isFound = wanted !== "" && fits(part);
    found += isFound;
    part.hidden = wanted !== "" && !isFound;
  }
  for (const part of document.querySelectorAll("g.row, g.box")) {
    const isFound = wanted !== "" && fits(part.querySelector("title"));
    part.classList.toggle("found", isFound);
    part.classList.toggle("missed", wanted !== "" && !isFound);
  }
  count.textContent = wanted === "" ? "" : `${found} found in the lists`;
}

if (choice) {
  document.querySelector(".choose").hidden = false;
  choice.addEventListener("change", () => show(choice.selectedIndex));
  document.getElementById("before").addEventListener("click", () => show(choice.selectedIndex - 1));
  document.getElementById("behind").addEventListener("click", () => show(choice.selectedIndex + 1));
  show(Number(choice.dataset.first));
}
document.querySelector("nav").hidden = false;
search.addEventListener("input", seek);
