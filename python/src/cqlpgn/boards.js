// Games and their boards, on the page that stands alone and on the desk. Articles may come and go: each one is adopted.
"use strict";
const SQUARES = "ABCDEFGHIJKLMNOPQRSTUVWXYZabcdefghijklmnopqrstuvwxyz0123456789+-";
const START = "rnbqkbnr/pppppppp/8/8/8/8/PPPPPPPP/RNBQKBNR";
const viewer = document.querySelector("aside");
const COORDINATES = document.body.classList.contains("coordinates");
let current = null, turned = false, shown = null;

// What the page around the boards does: `more` brings games before (-1) or after (1) those that stand, `at` hears of a match.
const around = {
  more: async () => false,
  at(figure) {
    const all = figures();
    document.getElementById("n").textContent = `${all.indexOf(figure) + 1} of ${all.length}`;
  },
};
const figures = () => [...document.querySelectorAll("article figure")];

// The 64 letters of a position's men from a1 to h8, a space where there is none.
const boardOf = placement => placement.replace(/\d/g, d => " ".repeat(d)).split("/").reverse().join("").split("");

// The board after a move, written as two signs of SQUARES and, where a pawn promotes, its letter.
function after(board, move) {
  if (move === "!!") return board;
  const b = board.slice(), [from, to] = [SQUARES.indexOf(move[0]), SQUARES.indexOf(move[1])], man = b[from];
  if ("Pp".includes(man) && (to - from) % 8 && b[to] === " ") b[to + (man === "P" ? -8 : 8)] = " ";
  if ("Kk".includes(man) && Math.abs(to - from) === 2) {
    const corner = to > from ? from + 3 : from - 4;
    b[(from + to) / 2] = b[corner];
    b[corner] = " ";
  }
  b[to] = move[2] ? (man === "P" ? move[2] : move[2].toLowerCase()) : man;
  b[from] = " ";
  return b;
}

// An element of a picture with its attributes.
function element(name, attributes, parent) {
  const made = document.createElementNS("http://www.w3.org/2000/svg", name);
  for (const [key, value] of Object.entries(attributes)) made.setAttribute(key, value);
  if (parent) parent.append(made);
  return made;
}

// Draws a board into a place, with the two squares of the last move and its arrow.
function draw(place, board, move, isTurned) {
  const x = s => isTurned ? 7 - s % 8 : s % 8, y = s => isTurned ? s >> 3 : 7 - (s >> 3);
  const out = element("svg", { viewBox: "0 0 8 8" });
  const cell = (s, kind) => element("rect", { class: kind, x: x(s), y: y(s), width: 1, height: 1 }, out);
  element("rect", { class: "l", width: 8, height: 8 }, out);
  let dark = "";
  for (let s = 0; s < 64; s++) if ((s + (s >> 3)) % 2 === 0) dark += `M${x(s)} ${y(s)}h1v1h-1z`;
  element("path", { class: "d", d: dark }, out);
  const moved = move && move !== "!!", [from, to] = moved ? [SQUARES.indexOf(move[0]), SQUARES.indexOf(move[1])] : [];
  if (moved) { cell(from, "f"); cell(to, "t"); }
  board.forEach((man, s) => {
    const side = man < "a" ? "w" : "b";
    if (man !== " ") element("use", { class: side, href: "#" + man.toUpperCase(), x: x(s), y: y(s), width: 1, height: 1 }, out);
  });
  if (moved) arrow(out, x(from), y(from), x(to), y(to));
  if (COORDINATES) for (let n = 0; n < 8; n++) {
    element("text", { x: n + .82, y: 7.95 }, out).textContent = "abcdefgh"[isTurned ? 7 - n : n];
    element("text", { x: .04, y: n + .22 }, out).textContent = isTurned ? n + 1 : 8 - n;
  }
  place.replaceChildren(out);
}

// Draws an arrow between two squares.
function arrow(out, x1, y1, x2, y2) {
  const [dx, dy] = [x2 - x1, y2 - y1], length = Math.hypot(dx, dy), [ux, uy] = [dx / length, dy / length];
  const [sx, sy, ex, ey] = [x1 + .5 + ux * .3, y1 + .5 + uy * .3, x2 + .5 - ux * .38, y2 + .5 - uy * .38];
  const wing = k => `${ex - ux * .3 + k * uy * .2} ${ey - uy * .3 - k * ux * .2}`;
  const group = element("g", { class: "arrow", "stroke-width": .1 }, out);
  element("path", { d: `M${sx} ${sy}L${ex - ux * .3} ${ey - uy * .3}` }, group);
  element("path", { stroke: "none", d: `M${ex} ${ey}L${wing(1)}L${wing(-1)}Z` }, group);
}

const drawFigure = f => draw(f.firstElementChild, boardOf(f.dataset.fen.split(" ")[0]), f.dataset.move, turned !== !!f.dataset.turned);
const drawAgain = () => document.querySelectorAll("figure svg").forEach(svg => drawFigure(svg.closest("figure")));

// The positions after each move of a game, in the order of its text; made when they are asked for the first time.
function positions(article) {
  if (article.positions) return article.positions;
  const list = [], back = [];
  let board = boardOf(article.dataset.start || START), before = board;
  for (const word of article.dataset.moves.match(/[()]|..(?:=.)?/g) || []) {
    if (word === "(") { back.push([board, before]); board = before; }
    else if (word === ")") [board, before] = back.pop();
    else {
      const move = word.replace("=", "");
      before = board;
      board = after(board, move);
      list.push([board, move]);
    }
  }
  return article.positions = list;
}

// Each move that is not marked becomes an element of its own, so that it can be clicked.
function wrapMoves(article) {
  if (article.wrapped) return;
  article.wrapped = true;
  const walker = document.createTreeWalker(article.querySelector(".moves"), NodeFilter.SHOW_TEXT), texts = [];
  while (walker.nextNode()) if (!walker.currentNode.parentElement.closest("em, i, b")) texts.push(walker.currentNode);
  for (const node of texts) {
    node.replaceWith(...node.data.split(/([A-Za-z][^\s()]*|--)/).map((text, place) => {
      if (place % 2 === 0) return text;
      const made = document.createElement("u");
      made.textContent = text;
      return made;
    }));
  }
}

const movesOf = article => [...article.querySelectorAll(".moves u, .moves b:not(.start)")];

function lift() { document.querySelectorAll(".at").forEach(e => e.classList.remove("at")); }

// The match that was gone to last, as a game and the number of its move; -1 where it is the start, null where there is no match.
function matched() {
  const article = current && current.isConnected && current.closest("article");
  return article && article.querySelector(".moves")
    ? [article, movesOf(article).findIndex(move => move.dataset.match === current.id)] : null;
}

// Goes to a match: its board, and its move in the text.
function go(figure) {
  current = figure;
  const article = figure.closest("article");
  if (article.querySelector(".moves")) wrapMoves(article);
  drawFigure(figure);
  close();
  lift();
  figure.classList.add("at");
  const move = article.querySelector(`[data-match="${figure.id}"]`);
  if (move) move.classList.add("at");
  figure.scrollIntoView({ block: "center" });
  around.at(figure);
}

// The match after the one that was gone to last, or before it; where that is not there, the first one in view or the one before.
function neighbour(by) {
  const all = figures(), here = all.indexOf(current);
  if (here >= 0) return all[here + by];
  const inView = all.findIndex(f => f.getBoundingClientRect().bottom > innerHeight * .3);
  return all[by > 0 ? Math.max(0, inView) : inView - 1];
}

// Goes to the next match or the one before, and has games brought where there is none.
async function step(by) {
  let figure = neighbour(by);
  if (!figure && await around.more(by)) figure = neighbour(by);
  if (figure) go(figure);
}

// Shows the board after one move of a game in the corner of the window.
function show(article, number) {
  wrapMoves(article);
  const moves = movesOf(article), list = positions(article);
  if (number < 0 || number >= moves.length) return;
  shown = [article, number];
  viewer.hidden = false;
  draw(viewer.firstElementChild, ...list[number], turned);
  viewer.querySelector("span").textContent = moves[number].textContent;
  lift();
  moves[number].classList.add("at");
  moves[number].scrollIntoView({ block: "nearest" });
}

function close() { viewer.hidden = true; shown = null; }

document.addEventListener("click", event => {
  const move = event.target.closest(".moves u, .moves b"), figure = event.target.closest("article figure");
  if (event.target.closest("aside button")) return close();
  if (event.target.closest("figure button")) {
    navigator.clipboard ? navigator.clipboard.writeText(figure.dataset.fen) : prompt("FEN", figure.dataset.fen);
    event.target.textContent = "copied";
    return;
  }
  const article = event.target.closest("article");
  const match = move && move.dataset.match && article.querySelector(`[id="${move.dataset.match}"]`);
  if (match) return go(match);
  if (move && !move.dataset.match) return show(article, movesOf(article).indexOf(move));
  if (figure) go(figure);
});
document.addEventListener("keydown", event => {
  if (event.ctrlKey || event.altKey || event.metaKey) return;
  if (event.target.closest("input, textarea, select, .CodeMirror, .setting")) return;
  const keys = { j: () => step(1), k: () => step(-1), Escape: close, f() {
    turned = !turned;
    drawAgain();
    if (shown) show(...shown);
  } };
  const by = { ArrowLeft: -1, ArrowRight: 1 }[event.key], from = by && (shown || matched());
  if (from) { event.preventDefault(); show(from[0], from[1] + by); }
  else if (keys[event.key]) keys[event.key]();
});
const near = new IntersectionObserver(entries => entries.forEach(entry => {
  if (!entry.isIntersecting) return;
  near.unobserve(entry.target);
  if (entry.target.matches("figure")) drawFigure(entry.target);
  else if (entry.target.querySelector(".moves")) wrapMoves(entry.target);
}), { rootMargin: "600px" });

// Takes up an article: its boards are drawn as they come into view.
function adopt(article) { [article, ...article.querySelectorAll("figure")].forEach(e => near.observe(e)); }

document.querySelectorAll("article").forEach(adopt);
addEventListener("beforeprint", () => figures().forEach(drawFigure));
