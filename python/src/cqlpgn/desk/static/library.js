// The queries at the side: the cookbook by theme, those that were saved, and what was asked before.
import { $, ask, element } from "./line.js";
import { complain, take } from "./editor.js";

const STARTERS = [
  ["Smothered mate", "smothered mate", "6rk/5Npp/8/8/8/8/6PP/7K", "m1"],
  ["Back-rank mate", "back-rank mate", "3R2k1/5ppp/8/8/8/8/5PPP/6K1", "D7"],
  ["Knight forks", "a knight that forks two of king, queen and rooks", "r1b1k2r/ppNp1ppp/8/8/4q3/8/PPP2PPP/R2QK2R", "jy"],
  ["Rook endings", "a rook ending", "8/5k2/4p1p1/r6p/5P1P/4K1P1/8/1R6", ""],
];

function recipe(name, query, click) {
  return element("button", { className: "recipe", title: query, onclick: click }, name);
}

function shelf(id, heading) {
  const made = element("section", { id }, element("h3", {}, heading), element("div"));
  made.hidden = true;
  return made;
}

export function shelve(cookbook) {
  const shelves = $("recipes");
  shelves.append(shelf("own", "Saved in this folder"), shelf("asked", "Asked before"));
  let theme = "";
  for (const { theme: own, name, query } of cookbook) {
    if (own !== theme) shelves.append(element("h3", {}, theme = own));
    shelves.append(recipe(name, query, () => take(query)));
  }
  $("seek").oninput = () => {
    const wanted = $("seek").value.toLowerCase();
    for (const b of shelves.querySelectorAll("button")) b.hidden = !(b.textContent + b.title).toLowerCase().includes(wanted);
  };
  $("cookbook").onkeydown = event => {
    const by = { ArrowDown: 1, ArrowUp: -1 }[event.key], all = [$("seek"), ...shelves.querySelectorAll("button:not([hidden])")];
    const next = by && all[all.indexOf(event.target) + by];
    if (next) { event.preventDefault(); next.focus(); }
  };
  for (const [name, sought, fen, move] of STARTERS) {
    const found = cookbook.find(r => r.name === sought);
    if (!found) continue;
    const figure = element("figure", { tabIndex: 0 }, element("div"), element("figcaption", {}, element("strong", {}, name)));
    Object.assign(figure.dataset, { fen, move });
    drawFigure(figure);
    figure.onclick = () => take(found.query);
    figure.onkeydown = event => { if (event.key === "Enter") take(found.query); };
    $("starters").append(figure);
  }
}

function fill(id, buttons) {
  $(id).hidden = !buttons.length;
  $(id).lastElementChild.replaceChildren(...buttons);
}

export function own(names) {
  fill("own", names.map(name => recipe(name.replace(/\.cql$/i, ""), name, async () => {
    try { take(await ask("open", { name })); } catch (refusal) { complain(refusal.message); }
  })));
}

export function asked(queries) {
  fill("asked", queries.map(query => recipe(query.replace(/\s+/g, " ").slice(0, 90), query, () => take(query))));
}

// Saves the query under the name beside the button; the second click on the same name writes over what is there.
export function keeping(text) {
  let refused = null;
  $("name").oninput = () => { refused = null; $("keep").textContent = "Save"; };
  $("name").onkeydown = event => { if (event.key === "Enter") { event.preventDefault(); $("keep").click(); } };
  $("keep").onclick = async () => {
    const name = $("name").value.trim();
    try {
      const answer = await ask("save", { name, query: text(), over: refused === name });
      $("kept").textContent = `${answer.name} is saved`;
      own(answer.queries);
      refused = null;
    } catch (refusal) {
      $("kept").textContent = refusal.message;
      refused = / is there already$/.test(refusal.message.replace(":", "")) ? name : null;
    }
    $("keep").textContent = refused === null ? "Save" : "Write over it";
  };
}
