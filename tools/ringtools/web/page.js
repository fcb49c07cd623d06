"use strict";
// Lights up one circuit in every drawing and table of the page, and shows what is pointed at, touched or reached by a key.
(() => {
  const all = (selector, within = document) => [...within.querySelectorAll(selector)];
  let lit = null;

  const light = (name) => {
    lit = name === lit ? null : name;
    for (const place of all("[data-circuit]")) {
      const here = place.dataset.circuit === lit;
      place.classList.toggle("lit", here);
      const pressed = place.matches("[aria-pressed]") ? place : place.querySelector("[aria-pressed]");
      if (pressed) pressed.setAttribute("aria-pressed", String(here));
    }
    for (const drawing of all("svg.drawing")) drawing.classList.toggle("has-lit", lit !== null);
  };

  const nameOf = (item) => item.querySelector(":scope > title").textContent;

  const tell = (figure, item) => {
    figure.querySelector(".told").textContent = nameOf(item);
  };

  // A drawing is one stop of the Tab key; arrows lead on from thing to thing in it.
  const move = (items, from, key) => {
    const way = { ArrowRight: 1, ArrowDown: 1, ArrowLeft: -1, ArrowUp: -1 }[key];
    const to = key === "Home" ? 0 : key === "End" ? items.length - 1 : (from + way + items.length) % items.length;
    items[from].setAttribute("tabindex", "-1");
    items[to].setAttribute("tabindex", "0");
    items[to].focus();
  };

  // A key on a node or a fibre leaves the circuit lit that was.
  const lightItem = (item) => {
    if (item.dataset.circuit) light(item.dataset.circuit);
  };

  const onKey = (items, event) => {
    const item = event.target.closest(".item");
    const from = items.indexOf(item);
    if (from < 0) return;
    if (/^(Arrow|Home|End)/.test(event.key)) move(items, from, event.key);
    else if (event.key === "Enter" || event.key === " ") lightItem(item);
    else if (event.key === "Escape") light(null);
    else return;
    event.preventDefault();
  };

  const prepare = (figure) => {
    const items = [...all(".circuit", figure), ...all(".node-item", figure), ...all(".fibre-item", figure)];
    figure.querySelector("svg").setAttribute("role", "group");
    items.forEach((item, number) => {
      item.setAttribute("tabindex", number ? "-1" : "0");
      item.setAttribute("role", item.dataset.circuit ? "button" : "img");
      item.setAttribute("aria-label", nameOf(item));
      if (item.dataset.circuit) item.setAttribute("aria-pressed", "false");
    });
    figure.querySelector(".told").hidden = false;
    figure.addEventListener("keydown", (event) => onKey(items, event));
    figure.addEventListener("focusin", (event) => event.target.closest(".item") && tell(figure, event.target.closest(".item")));
    figure.addEventListener("click", (event) => {
      const told = event.target.closest(".item, .mark");
      if (told) tell(figure, told);
      light(event.target.closest("[data-circuit]")?.dataset.circuit || null);
    });
  };

  const makeButton = (cell) => {
    const button = document.createElement("button");
    button.type = "button";
    button.setAttribute("aria-pressed", "false");
    button.title = "light up its route";
    button.append(...cell.childNodes);
    button.addEventListener("click", () => {
      const name = cell.closest("[data-circuit]").dataset.circuit;
      const figure = cell.closest("section")?.querySelector("figure.figure");
      if (figure) tell(figure, figure.querySelector(`.circuit[data-circuit="${name}"]`));
      light(name);
    });
    cell.append(button);
  };

  const unfold = (button) => {
    const folded = all("details");
    const open = folded.some((part) => !part.open);
    for (const part of folded) part.open = open;
    button.textContent = open ? "fold all" : "unfold all";
  };

  // A diagram of signalling has no things to point at, and no place that names them.
  all("figure.figure").filter((figure) => figure.querySelector(".told")).forEach(prepare);
  all("tr[data-circuit] > .name").forEach(makeButton);
  for (const tools of all(".tools")) tools.hidden = false;
  for (const button of all("button.unfold")) button.addEventListener("click", () => unfold(button));
})();
