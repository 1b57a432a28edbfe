// The page of the desk: what is typed is checked, what is asked is run, and what is found is shown near the view alone.
import { $, ask, bytes, connect, count, element, lost } from "./line.js";
import { check, complain, edit, hasEditor, say, settle, text } from "./editor.js";
import { begin as show, fill, filter, grow, point } from "./results.js";
import { asked, keeping, own, shelve } from "./library.js";
import { set } from "./setting.js";

let run = null, here = 0, which = 0;

// --- how it looks at first: the folder, its archives, the queries

function hear(message) {
  if (message.page) welcome(message);
  else tell(message.run);
}

function welcome(message) {
  const isNew = message.page !== sessionStorage.getItem("page");
  sessionStorage.setItem("page", message.page);
  lost("");
  $("folder").textContent = message.folder;
  $("folder").title = message.folder;
  list(message);
  if (!hasEditor()) {
    shelve(message.cookbook);
    keeping(text);
    set();
    edit(message.words, start, explain);
  }
  own(message.queries);
  asked(message.history);
  if (message.run && run && run.run === message.run.run) tell(message.run);
  else if (message.run) begin(message.run);
  else if (isNew || run) { run = null; clear(); }
}

// The archives of the folder, each to be chosen; those that were chosen before, or else the first one, are. How many are left out is told.
function list({ archives, left }) {
  const before = new Set(chosen().length ? chosen() : JSON.parse(sessionStorage.getItem("archives") || "[]"));
  const isChosen = a => before.has(a.name);
  if (!archives.some(isChosen)) before.add(archives.length ? archives[0].name : "");
  $("archives").lastElementChild.replaceChildren(...archives.map(a => element("label", {},
    element("input", { type: "checkbox", value: a.name, checked: isChosen(a), onchange: choice }),
    ` ${a.name} `, element("span", { className: "soft" }, bytes(a.size)))),
  ...(left ? [element("p", { className: "soft" }, `${count(left, "archive is", "archives are")} left out: choose a smaller folder.`)] : []));
  choice();
  if (!archives.length) say("There is no archive (*.pgn, also .gz .bz2 .xz .zst, or *.zip) in this folder.");
}

const chosen = () => [...$("archives").querySelectorAll("input:checked")].map(box => box.value);

function choice() {
  const names = chosen();
  sessionStorage.setItem("archives", JSON.stringify(names));
  $("archives").firstElementChild.textContent = names.length === 1 ? names[0] : count(names.length, "archive", "archives");
}

function tab(name) {
  document.body.dataset.tab = name;
  for (const b of document.querySelectorAll(".tabs button")) b.setAttribute("aria-selected", b.dataset.to === name);
  if (name === "games") fill();
}

// Opens one of the panes below the query, or closes it.
function pane(button) {
  const place = $(button.dataset.pane);
  place.hidden = !place.hidden;
  button.setAttribute("aria-expanded", !place.hidden);
  if (place.id === "explained") explain();
}

// Where the pane for it is open, shows what the query asks.
async function explain() {
  const place = $("explained");
  if (place.hidden) return;
  const query = text();
  let said;
  try {
    const answer = await ask("explain", { query });
    said = answer.fault ? "The query has a fault." : answer.text;
  } catch (refusal) { said = refusal.message; }
  if (query === text()) place.textContent = said;
}

// Light or dark, where one of them is chosen; other tabs of the desk follow.
function paint() {
  $("look").value = localStorage.getItem("look") || "";
  document.documentElement.dataset.look = $("look").value;
}

// --- the run

const over = run => ["done", "stopped", "failed"].includes(run.state);

async function start() {
  if (run && !over(run)) return;
  settle();
  try {
    const answer = await ask("run", { query: text(), archives: chosen(), first: $("first").checked });
    if (answer.fault) return check();
    asked(answer.history);
    begin(answer.run);
  } catch (refusal) { complain(refusal.message); }
}

const stop = () => ask("stop", { run: run.run }).catch(refusal => complain(refusal.message));

// A run has begun, or the page has come back to it.
function begin(state) {
  clear();
  $("empty").hidden = true;
  const queries = state.found.length;
  $("which").hidden = queries < 2;
  $("which").replaceChildren(...state.found.map((_, n) => element("option", { value: n }, `query ${n + 1}`)));
  run = state;
  show({ run: state.run, query: 0 });
  tell(state);
}

function clear() {
  here = which = 0;
  $("filter").value = $("left").textContent = "";
  $("report").hidden = true;
  $("empty").hidden = false;
  $("faults").hidden = true;
  $("faults").open = false;
  $("count").textContent = "";
  $("which").hidden = true;
  show(null);
}

function summed(found, marked) {
  const ended = over(run);
  if (!found) return ended ? (run.state === "done" ? "No game has such a position" : "Nothing found") : "Nothing found so far";
  return count(found, "game", "games") + (marked ? `, ${count(marked, "position", "positions")}` : "");
}

// How far the run is, or how it ended.
function went() {
  const read = `${bytes(run.read)} of ${bytes(run.size)}`, seconds = `${run.seconds.toFixed(1)} s`;
  const name = run.archives === 1 ? run.archive : `${run.archives} archives`;
  const none = !run.found.some(Boolean) && !/variations/.test(run.query);
  const late = run.found.length > 1 ? " · of several queries the games come at the end"
    : run.sorts ? " · sorted games come at the end" : "";
  return {
    waiting: "waits for other runs to end",
    reading: `${run.archives > 1 ? `${run.reading} · ` : ""}${read} · ${seconds}${late}`,
    done: `${count(run.games, "game", "games")} of ${name} read in ${seconds}`
      + (none ? " · cql(variations) searches the variations too" : ""),
    stopped: `stopped after ${read}`,
    failed: "",
  }[run.state];
}

// What the server says of the run: how far it is, and how much is found.
function tell(state) {
  if (run && state.run < run.run) return;
  run = state;
  const ended = over(run), found = run.found[which], marked = run.marked[which];
  $("run").textContent = ended ? "Run" : "Stop";
  $("run").classList.toggle("stop", !ended);
  $("report").hidden = false;
  $("progress").hidden = ended;
  if (run.state === "waiting") $("progress").removeAttribute("value");
  else $("progress").value = run.size ? run.read / run.size : 1;
  $("sum").textContent = summed(found, marked);
  $("how").textContent = went();
  $("troubles").replaceChildren(...run.troubles.map(trouble => element("li", {}, trouble)));
  $("faults").hidden = !run.faulty && !over(run);
  $("faults").firstElementChild.textContent = run.faulty
    ? count(run.faulty, "game is faulty and was left out", "games are faulty and were left out") : "No game is faulty; doubtful games";
  $("links").hidden = !found;
  const page = sessionStorage.getItem("page");
  for (const link of $("links").children) link.href = `save/${page}/${run.run}/${which}/${link.dataset.form}`;
  $("count").textContent = found ? found.toLocaleString("en") : "";
  if (found && document.body.dataset.tab === "cookbook" && !$("articles").firstElementChild) tab(innerWidth < 992 ? "boards" : "games");
  where();
  if (!$("filter").value) grow(found);
}

function where() {
  const told = n => n.toLocaleString("en");
  $("where").textContent = here && run ? `match ${told(here)} of ${told(run.marked[which])}` : "";
}

// The games that were left out, and those that are read and may mean something else, each with the text around its fault when it is asked for.
async function faulty() {
  if (!$("faults").open || !run) return;
  const faults = await ask("faults", { run: run.run, query: 0 }).catch(() => []);
  const item = fault => {
    const shown = element("pre", { hidden: true }), advice = element("p", { className: "hint" });
    const look = async () => {
      shown.hidden = !shown.hidden;
      const [before, after, hint] = await ask("at", { archive: fault.archive, byte: fault.byte }).catch(refusal => [refusal.message, "", ""]);
      const spot = element("mark", {}, after.slice(0, 1) || "…");
      shown.replaceChildren(before, spot, after.slice(1));
      advice.textContent = hint;
      spot.scrollIntoView({ block: "nearest" });
    };
    const told = `${fault.archive}: game ${fault.game}, byte ${fault.byte}: ${fault.reason}`;
    return element("li", {}, element("button", { type: "button", onclick: look }, told), advice, shown);
  };
  $("faults").lastElementChild.replaceChildren(...faults.map(item));
  const asked = run.run, doubts = await ask("doubtful", { run: asked }).catch(() => []);
  if (run && run.run === asked) $("faults").lastElementChild.append(...doubts.map(item));
}

around.at = figure => {
  here = Number(figure.id.slice(1));
  where();
  point(figure.closest("article"));
};
let due;
$("filter").oninput = () => {
  clearTimeout(due);
  due = setTimeout(sift, 250);
};

// Leaves the games that the filter wants, and says how many they are.
async function sift() {
  const wanted = $("filter").value, all = run ? run.found[which] : 0;
  $("left").textContent = wanted ? "…" : "";
  try {
    const left = await filter(wanted);
    const told = n => n.toLocaleString("en");
    if (left !== null) $("left").textContent = wanted ? `${told(left)} of ${told(all)} games; a filter changes nothing in what is saved` : "";
  } catch (refusal) { complain(refusal.message); }
}
$("which").onchange = () => {
  which = Number($("which").value);
  here = 0;
  $("filter").value = $("left").textContent = "";
  show({ run: run.run, query: which });
  tell(run);
};
$("moves").onchange = () => document.body.classList.toggle("no-moves", !$("moves").checked);
$("faults").ontoggle = faulty;
$("ask").onsubmit = event => {
  event.preventDefault();
  if (run && !over(run)) stop(); else start();
};
document.querySelectorAll(".tabs button").forEach(b => { b.onclick = () => tab(b.dataset.to); });
document.querySelectorAll("#panes button").forEach(b => { b.onclick = () => pane(b); });
$("archives").ontoggle = async () => { if ($("archives").open) list(await ask("archives").catch(() => ({ archives: [], left: 0 }))); };
$("look").onchange = () => {
  localStorage.setItem("look", $("look").value);
  paint();
};
addEventListener("storage", paint);
// Escape closes what is open above the page, and else stops the run; this is asked before others hear of the key.
addEventListener("keydown", event => {
  if (event.key !== "Escape") return;
  const archives = $("archives"), isOpen = archives.open && archives.contains(event.target);
  if (isOpen) {
    archives.open = false;
    archives.firstElementChild.focus();
  } else if (document.querySelector("aside").hidden && !document.querySelector(".CodeMirror-hints") && run && !over(run)) stop();
}, true);
addEventListener("pointerdown", event => { if (!$("archives").contains(event.target)) $("archives").open = false; });
paint();
tab("cookbook");
connect(hear);
