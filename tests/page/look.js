// Looks at a trace's page in a browser: presses keys, and writes down what is shown after each.
"use strict";
const seen = [];

function shown() {
  const pieces = [...document.querySelectorAll("#text .piece")].map(piece =>
    (piece.title || "-") + "[" + piece.textContent + "]");
  const chosen = document.querySelector(".sentence.chosen");
  const none = document.querySelector("#sentences .none");
  return [
    document.getElementById("what").textContent,
    "  text " + (pieces.length ? pieces.join(" ") : document.getElementById("text").textContent),
    "  sentence " + (chosen ? chosen.textContent.trim() : none ? none.textContent : "none"),
    "  calls " + document.getElementById("stack").textContent.replace(/\n */g, " / "),
    "  record " + [...document.getElementById("record").childNodes].map(line => line.textContent).join(" / "),
    "  row " + document.querySelector(".row.now").textContent.trim(),
  ].join("\n");
}

function press(key) {
  document.dispatchEvent(new KeyboardEvent("keydown", { key, cancelable: true }));
  seen.push("key " + key, shown());
}

// Each variable has a colour of its own, and so have the characters of the pattern.
function coloured() {
  const pieces = [...document.querySelectorAll("#text .piece")];
  const names = new Set(pieces.map(piece => piece.title));
  const colours = new Set(pieces.map(piece => getComputedStyle(piece).backgroundColor));
  return pieces.length > 1 && names.size === colours.size;
}

seen.push(document.getElementById("closing").textContent, document.getElementById("whom").textContent);
seen.push("opened", shown(), "  colours " + (coloured() ? "differ" : "are alike"));
WANTED.forEach(press);
const rows = document.querySelectorAll(".row").length;
seen.push("pieces of the run that are read: " + (read.size <= 8 ? "8 at most" : read.size));
seen.push("rows that are there: " + (rows <= 60 ? "60 at most" : rows));
document.body.replaceChildren(element("pre", "SEEN\n" + seen.join("\n") + "\nEND"));
