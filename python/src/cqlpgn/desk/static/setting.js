// The board on which a position is set, by mouse or by keys, and the designators that find it.
import { $, element } from "./line.js";
import { insert } from "./editor.js";

const MEN = "KQRBNPkqrbnpAa_";
const NAMES = { K: "white king", Q: "white queen", R: "white rook", B: "white bishop", N: "white knight", P: "white pawn", k: "black king",
  q: "black queen", r: "black rook", b: "black bishop", n: "black knight", p: "black pawn", A: "any white man", a: "any black man",
  _: "no man" };
const SIGNS = { A: "A", a: "a", _: "·" };
const squareName = s => "abcdefgh"[s % 8] + (1 + (s >> 3));
const men = new Map();       // square: man
const groups = new Map();    // man: the squares on one of which it stands
let man = "K", at = 4;

// A man as a picture, or as its letter.
function sign(letter) {
  if (SIGNS[letter]) return element("span", { className: letter === "a" ? "letter black" : "letter" }, SIGNS[letter]);
  const [picture, use] = ["svg", "use"].map(name => document.createElementNS("http://www.w3.org/2000/svg", name));
  picture.setAttribute("viewBox", "0 0 1 1");
  const words = { class: letter < "a" ? "w" : "b", href: "#" + letter.toUpperCase(), width: 1, height: 1 };
  for (const [key, value] of Object.entries(words)) use.setAttribute(key, value);
  picture.append(use);
  return picture;
}

// What finds the position: each man on its square, those that stand on one of several, the side to move, and that there are no others.
export function designators() {
  const one = [...men].sort(([a], [b]) => a - b).map(([square, letter]) => letter + squareName(square));
  const several = [...groups].filter(([, squares]) => squares.size).map(([letter, squares]) => {
    const names = [...squares].sort((a, b) => a - b).map(squareName);
    return names.length === 1 ? letter + names[0] : `${letter}[${names.join(",")}]`;
  });
  const loose = [...groups].filter(([letter, squares]) => squares.size && letter !== "_").length;
  const standing = [...men.values()].filter(letter => letter !== "_").length + loose;
  return [...one, ...several, $("exact").checked ? `#(A | a) == ${standing}` : "", $("mover").value].filter(Boolean).join(" ");
}

function show() {
  for (const cell of $("squares").querySelectorAll("button")) {
    const square = Number(cell.dataset.square), here = men.get(square);
    const loose = [...groups].filter(([, squares]) => squares.has(square)).map(([letter]) => letter);
    cell.replaceChildren(...(here ? [sign(here)] : loose.map(sign)));
    cell.classList.toggle("loose", !here && loose.length > 0);
    const said = here ? [NAMES[here]] : loose.map(letter => `perhaps ${NAMES[letter]}`);
    cell.setAttribute("aria-label", [squareName(square), ...said].join(" "));
    cell.tabIndex = square === at ? 0 : -1;
  }
  for (const choice of $("palette").children) {
    choice.setAttribute("aria-checked", choice.dataset.man === man);
    choice.tabIndex = choice.dataset.man === man ? 0 : -1;
  }
  $("designators").textContent = designators();
}

// Sets the chosen man on a square, or takes it away.
function put(square, letter = man) {
  at = square;
  if ($("several").checked) {
    const squares = groups.get(letter) || new Set();
    squares.has(square) ? squares.delete(square) : squares.add(square);
    groups.set(letter, squares);
    men.delete(square);
  } else if (men.get(square) === letter) men.delete(square);
  else men.set(square, letter);
  show();
}

// Sets the men of a FEN, and who is to move; what is wrong with it is said beside it.
function read(fen) {
  const [placement, side] = fen.trim().split(/\s+/), rows = placement.replace(/\d/g, d => " ".repeat(d)).split("/");
  const bad = rows.length !== 8 || rows.some(row => row.length !== 8 || /[^KQRBNPkqrbnp ]/.test(row));
  $("fen-fault").textContent = bad && placement ? "eight ranks of eight squares are wanted" : "";
  if (bad) return;
  men.clear();
  groups.clear();
  rows.forEach((row, r) => [...row].forEach((letter, file) => { if (letter !== " ") men.set((7 - r) * 8 + file, letter); }));
  $("exact").checked = true;
  $("mover").value = { w: "wtm", b: "btm" }[side] || "";
  show();
}

function move(event) {
  const by = { ArrowLeft: -1, ArrowRight: 1, ArrowUp: 8, ArrowDown: -8 }[event.key];
  if (by && at + by >= 0 && at + by < 64 && !(Math.abs(by) === 1 && (at >> 3) !== ((at + by) >> 3))) at += by;
  else if (NAMES[event.key]) men.set(at, event.key);
  else if (event.key === "Delete" || event.key === "Backspace") {
    men.delete(at);
    for (const squares of groups.values()) squares.delete(at);
  }
  else return;
  event.preventDefault();
  show();
  $("squares").querySelector(`[data-square="${at}"]`).focus();
}

// The man beside the one that is chosen, by the arrow keys.
function turn(event) {
  const by = { ArrowLeft: -1, ArrowUp: -1, ArrowRight: 1, ArrowDown: 1 }[event.key];
  if (!by) return;
  event.preventDefault();
  man = MEN.at((MEN.indexOf(man) + by) % MEN.length);
  show();
  $("palette").querySelector("[aria-checked=true]").focus();
}

export function set() {
  for (let row = 7; row >= 0; row--) {
    const rank = element("div", { role: "row" });
    rank.setAttribute("role", "row");
    for (let file = 0; file < 8; file++) {
      const kind = (row + file) % 2 ? "light" : "dark";
      const cell = element("button", { type: "button", className: kind, onclick: () => put(row * 8 + file) });
      cell.setAttribute("role", "gridcell");
      cell.dataset.square = row * 8 + file;
      rank.append(cell);
    }
    $("squares").append(rank);
  }
  for (const letter of MEN) {
    const choice = element("button", { type: "button", title: NAMES[letter], onclick: () => { man = letter; show(); } }, sign(letter));
    choice.setAttribute("role", "radio");
    choice.setAttribute("aria-label", NAMES[letter]);
    choice.dataset.man = letter;
    $("palette").append(choice);
  }
  $("squares").addEventListener("keydown", move);
  $("palette").addEventListener("keydown", turn);
  $("fen").oninput = () => read($("fen").value);
  $("exact").onchange = $("mover").onchange = show;
  $("empty-board").onclick = () => {
    men.clear();
    groups.clear();
    $("fen").value = $("mover").value = $("fen-fault").textContent = "";
    $("exact").checked = false;
    show();
  };
  $("insert").onclick = () => insert(designators());
  show();
}
