"""A local web page for those who carry plans out: `python3 -m cstn.board FILE ..`, see docs/board.md."""
