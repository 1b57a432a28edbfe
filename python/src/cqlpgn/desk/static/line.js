// The line to the server: what is asked gets its answer, and what the server says by itself goes to who listens.
const waiting = new Map();
let socket, number = 0;

export const $ = id => document.getElementById(id);

// An element with its properties and what is in it; texts become text alone.
export function element(name, words = {}, ...parts) {
  const made = Object.assign(document.createElement(name), words);
  made.append(...parts);
  return made;
}

// A page that comes back says so, as the server may not have seen yet that its old line has ended. A tab that is doubled brings the name of
// the other one along, which is still there: it does not come back, and becomes a page of its own.
export function connect(listener, isBack = sessionStorage.getItem("left") === "1") {
  const there = new URL("socket", location.href);
  there.protocol = "ws:";
  there.searchParams.set("page", sessionStorage.getItem("page") || "");
  if (isBack) there.searchParams.set("back", "1");
  sessionStorage.removeItem("left");
  socket = new WebSocket(there);
  socket.onmessage = event => hear(JSON.parse(event.data), listener);
  socket.onclose = () => {
    lost("The desk has ended. Start cqlpgn-desk again, and open the address that it prints.");
    for (const [, badly] of waiting.values()) badly(new Error("the desk has ended"));
    waiting.clear();
    setTimeout(connect, 2000, listener, true);
  };
  onpagehide = () => {
    sessionStorage.setItem("left", "1");
    socket.onclose = null;
    socket.close();
  };
  onpageshow = event => { if (event.persisted) connect(listener, true); };
}

// Asks the server; the answer is what it gives, and a refusal an error.
export function ask(what, words = {}) {
  return new Promise((well, badly) => {
    if (!socket || socket.readyState !== WebSocket.OPEN) return badly(new Error("the desk has ended"));
    waiting.set(++number, [well, badly]);
    socket.send(JSON.stringify({ n: number, do: what, ...words }));
  });
}

function hear(message, listener) {
  if (!message.n) return listener(message);
  const [well, badly] = waiting.get(message.n) || [];
  waiting.delete(message.n);
  if (well) "refused" in message ? badly(new Error(message.refused)) : well(message.is);
}

export function lost(text) {
  $("lost").hidden = !text;
  $("lost").textContent = text;
}

export const bytes = n => n < 1000 ? `${n} bytes` : n < 1e6 ? `${(n / 1e3).toFixed(0)} kB`
  : n < 1e9 ? `${(n / 1e6).toFixed(n < 1e7 ? 1 : 0)} MB` : `${(n / 1e9).toFixed(1)} GB`;
export const count = (n, one, many) => `${n.toLocaleString("en")} ${n === 1 ? one : many}`;
