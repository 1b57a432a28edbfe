// What is found: the articles near the view, and the list of all games, of which the rows in view alone stand.
import { $, ask, element } from "./line.js";
import { complain } from "./editor.js";

const ROW = 52, BLOCK = 100, MOST_ARTICLES = 60, AT_ONCE = 10;
const TALLEST = 8_000_000;  // pixels that every browser bears; a longer list is scaled
const TAGS = new Set("article h2 small bdi p b i em span div figure figcaption strong button br".split(" "));
const KEPT = new Set("id class title data-fen data-move data-moves data-match data-start data-turned".split(" "));
const blocks = new Map(), rows = new Map(), ends = [$("before"), $("after")];
let first = 0, last = 0, busy = false, total = 0, asking = null, at = -1;
let turn = 0;  // an answer to what was asked before the last turn is dropped
let sifting = 0;  // of several filters the last one counts
let wanted = 0;  // of several games that are asked for faster than they come the last one is shown

// Begins anew: `what` names the run and the query whose games are shown, null for none.
export function begin(what) {
  asking = what;
  total = first = last = 0;
  at = -1;
  forget();
  $("articles").replaceChildren();
  $("list").scrollTop = 0;
  fill();
}

function forget() {
  turn++;
  blocks.clear();
  rows.clear();
  $("list").firstElementChild.replaceChildren();
}

// So many games are there now.
export function grow(games) {
  if (games === total && games) return;
  blocks.delete(Math.floor(total / BLOCK));
  total = games;
  fill();
  if (last < MOST_ARTICLES / 3) more(1);
}

// Leaves the games with a text, and tells how many; null where another text or another run has come meanwhile.
export async function filter(text) {
  if (!asking) return null;
  const what = asking, mine = ++sifting, isOld = () => what !== asking || mine !== sifting;
  let left;
  try { left = await ask("filter", { ...what, text }); } catch (refusal) {
    if (isOld()) return null;
    throw refusal;
  }
  if (isOld()) return null;
  begin(asking);
  grow(left);
  return left;
}

// An element from the server's lists: names and attributes that the page of boards has, and texts as texts.
function built(list) {
  if (typeof list === "string") return document.createTextNode(list);
  const [name, attributes, ...inside] = list;
  if (!TAGS.has(name)) throw new Error(`no part of a game: ${name}`);
  const made = document.createElement(name);
  for (const [key, value] of Object.entries(attributes)) if (KEPT.has(key)) made.setAttribute(key, value ?? "");
  made.append(...inside.map(built));
  return made;
}

// Brings the games before or after those that stand, and takes away what is far; what is in view stays where it is.
export async function more(by) {
  if (busy || !asking || (by > 0 ? last >= total : first <= 0)) return false;
  busy = true;
  const mine = turn, from = by > 0 ? last : Math.max(0, first - AT_ONCE), shelf = $("articles");
  const games = await ask("games", { ...asking, first: from, count: by > 0 ? AT_ONCE : first - from }).catch(refusal => {
    if (mine === turn) complain(refusal.message);
    return [];
  });
  busy = false;
  if (mine !== turn) return more(1);
  const stay = shelf.querySelector("article:has(.at)") || (by > 0 ? shelf.lastElementChild : shelf.firstElementChild);
  const top = stay && stay.getBoundingClientRect().top;
  const made = games.map(([place, list]) => {
    const article = built(list);
    article.dataset.place = place;
    adopt(article);
    return article;
  });
  if (by > 0) shelf.append(...made); else shelf.prepend(...made);
  if (by > 0) last += made.length; else first -= made.length;
  while (last - first > MOST_ARTICLES) {
    if (by > 0) { shelf.firstElementChild.remove(); first++; } else { shelf.lastElementChild.remove(); last--; }
  }
  if (stay && stay.isConnected) scrollBy(0, stay.getBoundingClientRect().top - top);
  if (made.length) requestAnimationFrame(() => ends.forEach(e => { edge.unobserve(e); edge.observe(e); }));
  return made.length > 0;
}

// Shows the game at a place of the list.
async function open(place) {
  const mine = ++wanted;
  if (innerWidth < 992) document.querySelector("[data-to=boards]").click();
  if (place < first || place >= last) {
    while (busy) await new Promise(well => setTimeout(well, 20));
    if (mine !== wanted) return;
    $("articles").replaceChildren();
    first = last = place;
    await more(1);
  }
  const article = $("articles").querySelector(`[data-place="${place}"]`);
  if (!article) return;
  article.scrollIntoView({ block: "start" });
  point(article);
}

// The row of an article is the one that is marked.
export function point(article) {
  at = Number(article.dataset.place);
  fill();
}

const height = () => Math.min(total * ROW, TALLEST);

// How many pixels of the whole list are above the view: as many as were scrolled, or where the list is scaled as many times more.
function above() {
  const view = $("list").clientHeight, room = height() - view;
  return room <= 0 ? 0 : $("list").scrollTop * (total * ROW - view) / room;
}

function scrollToRow(pixels) {
  const view = $("list").clientHeight, whole = total * ROW - view;
  $("list").scrollTop = whole <= 0 ? 0 : pixels * (height() - view) / whole;
}

// The rows of the list that are in view.
export function fill() {
  const list = $("list"), inner = list.firstElementChild, pixels = above(), shift = list.scrollTop - pixels;
  inner.style.height = `${height()}px`;
  const from = Math.floor(pixels / ROW), to = Math.min(total, from + Math.ceil(list.clientHeight / ROW) + 1);
  bring(from, to);
  if (blocks.size > 30) for (const b of blocks.keys()) if (Math.abs(b - from / BLOCK) > 5) blocks.delete(b);
  for (const [place, row] of rows) if (place < from - 5 || place > to + 5) { row.remove(); rows.delete(place); }
  for (let place = from; place < to; place++) {
    const words = (blocks.get(Math.floor(place / BLOCK)) || [])[place % BLOCK];
    if (!words || rows.has(place)) continue;
    rows.set(place, rowOf(place, words));
    inner.append(rows.get(place));
  }
  for (const [place, row] of rows) {
    row.style.transform = `translateY(${place * ROW + shift}px)`;
    row.setAttribute("aria-selected", place === at);
  }
  list.setAttribute("aria-activedescendant", rows.has(at) ? `row${at}` : "");
}

// Has the rows brought that are to be shown and not there.
function bring(from, to) {
  for (let b = Math.floor(from / BLOCK); asking && b * BLOCK < to; b++) {
    if (blocks.has(b)) continue;
    blocks.set(b, []);
    const mine = turn;
    ask("rows", { ...asking, first: b * BLOCK, count: BLOCK })
      .then(found => { if (mine === turn) { blocks.set(b, found); fill(); } }, () => blocks.delete(b));
  }
}

function rowOf(place, [, white, black, where, result, marks, archive]) {
  const names = white || black ? [white || "?", black || "?"] : [where || "?"];
  const rest = [white || black ? where : "", result === "1/2-1/2" ? "½-½" : result].filter(Boolean);
  const row = element("button", { className: "row", title: archive, tabIndex: -1, onclick: () => open(place) },
    element("span", { className: "names" }, ...names.map(name => element("span", {}, name))),
    element("small", {}, ...rest.map(text => element("span", {}, text))),
    element("b", {}, marks > 1 ? `${marks}` : ""));
  row.dataset.place = place;
  row.id = `row${place}`;
  row.setAttribute("role", "option");
  return row;
}

// Brings a row of the list into view, and shows its game.
function choose(place) {
  const list = $("list"), top = place * ROW, pixels = above();
  if (top < pixels) scrollToRow(top);
  if (top + ROW > pixels + list.clientHeight) scrollToRow(top + ROW - list.clientHeight);
  at = place;
  fill();
  list.focus({ preventScroll: true });
  open(place);
}

// The row that a key leads to: from the row that is marked, or where none is into the rows in view.
function led(key) {
  const top = Math.ceil(above() / ROW), view = Math.max(1, Math.floor($("list").clientHeight / ROW) - 1);
  const by = { ArrowDown: 1, ArrowUp: -1, PageDown: view, PageUp: -view }[key];
  if (key === "Home" || key === "End") return key === "Home" ? 0 : total - 1;
  return by && Math.min(total - 1, Math.max(0, at < 0 ? top : at + by));
}

const edge = new IntersectionObserver(entries => entries.forEach(e => e.isIntersecting && more(e.target.id === "after" ? 1 : -1)),
  { rootMargin: "1200px" });
ends.forEach(e => edge.observe(e));
new ResizeObserver(fill).observe($("list"));
$("list").addEventListener("scroll", fill);
$("list").addEventListener("keydown", event => {
  const place = led(event.key);
  if (place === undefined || !total) return;
  event.preventDefault();
  choose(place);
});
around.more = more;
