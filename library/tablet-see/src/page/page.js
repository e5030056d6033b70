// Steps through the session. Each list `since` holds [step, value]: the value holds from that step on.
"use strict";
const data = JSON.parse(document.getElementById("session").textContent);
const last = data.lines.length - 1;
const part = (id) => document.getElementById(id);
let now = 0;

// the value that holds at a step, by halves; undefined before the first
function at(since, step) {
  let low = 0, high = since.length;
  while (low < high) {
    const middle = (low + high) >> 1;
    if (since[middle][0] <= step) low = middle + 1; else high = middle;
  }
  return low ? since[low - 1][1] : undefined;
}

function make(tag, className, text) {
  const element = document.createElement(tag);
  if (className) element.className = className;
  if (text !== undefined) element.textContent = text;
  return element;
}

function listLines() {
  data.lines.forEach((entry, step) => {
    const button = make("button");
    button.type = "button";
    button.append(make("span", "", entry.line), make("span", "answer " + (entry.ok ? "ok" : "no"), entry.answer));
    button.addEventListener("click", () => show(step));
    const item = make("li");
    item.append(button);
    part("lines").append(item);
  });
}

function showTold(step) {
  const entry = data.lines[step];
  part("line").replaceChildren(entry.line + " ", make("span", entry.ok ? "ok" : "no", entry.answer));
  const [first, ...rest] = entry.told;
  const told = step === 0
    ? [make("p", "", first), ...(rest.length ? [make("pre", "", rest.join("\n"))] : [])]
    : entry.told.map((text) => make("p", "", text));
  part("told").replaceChildren(...told);
}

function showForms(step) {
  const forms = new Map();
  for (const field of data.fields) {
    if (!forms.has(field.process)) forms.set(field.process, []);
    const held = at(field.since, step) === true;
    const box = make("div", "field " + (held ? "held" : "off"));
    box.append(make("span", "", field.privilege), make("span", "", held ? "\u2713 held" : "\u2717 not held"));
    box.dataset.process = field.process;
    box.dataset.privilege = field.privilege;
    forms.get(field.process).push(box);
  }
  const boxes = [...forms].map(([process, fields]) => {
    const form = make("div", "form");
    form.append(make("h3", "", "process " + process), ...fields);
    return form;
  });
  part("forms").replaceChildren(...(boxes.length ? boxes : [make("p", "none", "No process ever has a row.")]));
}

function placeBox(title, note, texts, before) {
  const box = make("div", "place");
  box.append(make("h3", "", title));
  if (note) box.append(make("p", "note", note));
  if (!texts.length) box.append(make("p", "none", "empty"));
  const list = make("ul");
  for (const text of texts) list.append(make("li", before.includes(text) ? "" : "new", data.texts[text]));
  if (texts.length) box.append(list);
  return box;
}

function showState(step) {
  const boxes = [];
  for (const place of data.places) {
    const entry = at(place.since, step);
    if (!entry) continue;
    const before = step ? (at(place.since, step - 1) || ["", []])[1] : entry[1];
    boxes.push(placeBox(place.title, entry[0], entry[1], before));
  }
  const requests = at(data.requests, step);
  boxes.push(placeBox("open requests", "", requests, step ? at(data.requests, step - 1) : requests));
  boxes.push(placeBox("next number: " + at(data.next, step), "rows and requests are numbered alike", [], []));
  boxes[boxes.length - 1].lastChild.remove();
  part("state").replaceChildren(...boxes);
}

function show(step) {
  now = Math.max(0, Math.min(last, step));
  showTold(now);
  showForms(now);
  part("drawing").innerHTML = at(data.drawings, now);
  showState(now);
  part("slider").value = now;
  part("count").textContent = now + " of " + last;
  part("first").disabled = part("back").disabled = now === 0;
  part("last").disabled = part("forward").disabled = now === last;
  [...part("lines").children].forEach((item, k) => {
    const button = item.firstChild;
    if (k === now) {
      button.setAttribute("aria-current", "step");
      const list = part("lines");
      list.scrollTop = item.offsetTop - list.offsetTop - list.clientHeight / 2;
    } else {
      button.removeAttribute("aria-current");
    }
  });
}

document.addEventListener("keydown", (event) => {
  if (event.ctrlKey || event.altKey || event.metaKey) return;
  const steps = { ArrowRight: now + 1, ArrowLeft: now - 1, Home: 0, End: last };
  if (!(event.key in steps)) return;
  event.preventDefault();
  show(steps[event.key]);
});
part("first").addEventListener("click", () => show(0));
part("back").addEventListener("click", () => show(now - 1));
part("forward").addEventListener("click", () => show(now + 1));
part("last").addEventListener("click", () => show(last));
part("slider").max = last;
part("slider").addEventListener("input", (event) => show(Number(event.target.value)));
window.addEventListener("hashchange", () => show(Number(location.hash.slice(1)) || 0));
listLines();
show(Number(location.hash.slice(1)) || 0);
