"use strict";
// Looks the chosen failures up in the cases of each ring that they touch, and joins what becomes of each customer's sections.
// What becomes of a section is looked up; a customer is lost where one of his sections is.
(() => {
  const by = (id) => document.getElementById(id);
  const all = (selector, within = document) => [...within.querySelectorAll(selector)];
  const data = JSON.parse(by("data").textContent);
  const drawing = by("network");
  const words = { k: "kept", i: "impaired", o: "over", l: "lost" }, shown = { ...words, o: "over protection" };
  const rank = "koil";
  let chosen = [], whose = "";

  // The place of a case in a ring's list: nothing, each alone, each two.
  const placeOf = (count, [one, other]) => {
    if (other === undefined) return one === undefined ? 0 : one + 1;
    return 1 + count + (one * (2 * count - one - 1)) / 2 + other - one - 1;
  };

  // The failures of a ring by their numbers in it, each once.
  const numbersIn = (ring, failures) => {
    const found = failures.flatMap((number) => data.failures[number][2].filter(([at]) => at === ring).map(([, local]) => local));
    return [...new Set(found)].sort((a, b) => a - b);
  };

  const letters = (ring) => {
    const numbers = numbersIn(ring, chosen), { cases, outcomes, count } = data.rings[ring];
    return numbers.length > 2 ? undefined : outcomes[cases[placeOf(count, numbers)]];
  };

  // Of each customer the worst that becomes of a section, and the sections that break; null where a case isn't in the page.
  const joined = () => {
    const found = data.rings.map((_, ring) => letters(ring));
    if (found.includes(undefined)) return null;
    return data.customers.map(([, sections]) => {
      const fates = sections.map(([ring, section]) => found[ring][section]);
      const worst = fates.reduce((a, b) => (rank.indexOf(b) > rank.indexOf(a) ? b : a), "k");
      const breaks = sections.filter((_, i) => fates[i] === "l").map(([ring, , one, other]) => `${data.rings[ring].name} ${one}–${other}`);
      return { worst, breaks, fates };
    });
  };

  const names = (found, letter) => data.customers.filter((_, i) => found[i].worst === letter).map(([name]) => name);
  const list = (all, most = 40) => (all.length ? `: ${all.slice(0, most).join(", ")}${all.length > most ? ` and ${all.length - most} more` : ""}` : "");

  const sentence = (found) => {
    const what = chosen.map((number) => data.failures[number][0]).join(" and ") || "Nothing more fails";
    if (!found) return `${what}: this case isn't in the page, which has up to two failures that touch one ring.`;
    const [impaired, over, lost] = ["i", "o", "l"].map((letter) => names(found, letter));
    const also = impaired.length ? ` ${impaired.length} kept but impaired${list(impaired)}.` : "";
    const kept = found.length - impaired.length - over.length - lost.length;
    return `${what}. ${lost.length} lost${list(lost)}. ${over.length} over protection${list(over)}.${also} ${kept} kept.`;
  };

  const showCustomers = (found) => {
    for (const row of all("#customers tr[data-customer]")) {
      const one = found ? found[+row.dataset.customer] : null, cell = row.querySelector(".now");
      const result = one ? shown[one.worst] : "";
      if (cell.textContent !== result) cell.textContent = result;
      cell.className = `now ${one ? words[one.worst] : ""}`;
      const breaks = one ? one.breaks.join("; ") : "";
      if (row.querySelector(".breaks").textContent !== breaks) row.querySelector(".breaks").textContent = breaks;
      row.classList.toggle("lit", row.dataset.customer === whose);
      row.querySelector(".name button")?.setAttribute("aria-pressed", String(row.dataset.customer === whose));
    }
  };

  // The spans of a customer's sections: on its own arc, or where it goes over protection the other way round.
  const wayOf = (found) => {
    const spans = new Map();
    if (whose === "") return spans;
    data.customers[+whose][1].forEach(([ring, section], i) => {
      const { size, arcs } = data.rings[ring], [start, count] = arcs[section];
      const fate = found ? found[+whose].fates[i] : "k";
      const own = [...Array(count).keys()].map((step) => (start + step) % size);
      const way = fate === "o" ? [...Array(size).keys()].filter((span) => !own.includes(span)) : own;
      for (const span of way) spans.set(`${ring} ${span}`, words[fate]);
    });
    return spans;
  };

  const showDrawing = (found) => {
    const way = wayOf(found), parts = new Set(chosen.flatMap((number) => data.failures[number][3]));
    for (const item of all(".button", drawing)) {
      const number = +item.dataset.failure, fate = way.get(item.dataset.span);
      item.classList.toggle("failing", chosen.includes(number) || parts.has(number));
      item.setAttribute("aria-pressed", String(chosen.includes(number)));
      item.classList.toggle("on-way", fate !== undefined);
      for (const word of ["over", "lost"]) item.classList.toggle(word, fate === word);
    }
  };

  const showChosen = () => {
    by("failed").replaceChildren(...chosen.map((number) => {
      const button = document.createElement("button");
      button.type = "button";
      button.textContent = `${data.failures[number][0]} ✕`;
      button.title = "take it away";
      button.addEventListener("click", () => toggle(number));
      return button;
    }));
  };

  const show = () => {
    const found = joined();
    by("told").textContent = sentence(found);
    by("whose").value = whose;
    showChosen();
    showDrawing(found);
    showCustomers(found);
  };

  // The page has up to two failures that touch one ring: where there are more the earliest ones are taken away.
  const fits = (failures) => data.rings.every((_, ring) => numbersIn(ring, failures).length <= 2);
  const toggle = (number) => {
    chosen = chosen.includes(number) ? chosen.filter((one) => one !== number) : [...chosen, number];
    while (chosen.length > 1 && !fits(chosen)) chosen = chosen.slice(1);
    show();
  };

  const follow = (number) => {
    whose = number;
    show();
  };

  const prepareDrawing = () => {
    drawing.classList.add("live");
    for (const item of all(".button", drawing)) {
      item.setAttribute("tabindex", "0");
      item.setAttribute("role", "button");
      item.setAttribute("aria-label", item.querySelector("title").textContent);
      item.addEventListener("click", () => toggle(+item.dataset.failure));
      item.addEventListener("keydown", (event) => {
        if (event.key !== "Enter" && event.key !== " ") return;
        event.preventDefault();
        toggle(+item.dataset.failure);
      });
    }
  };

  const prepareNames = () => {
    for (const row of all("#customers tr[data-customer]")) {
      const cell = row.querySelector(".name"), button = document.createElement("button");
      button.type = "button";
      button.title = "show its way in the network";
      button.append(...cell.childNodes);
      cell.append(button);
      button.addEventListener("click", () => follow(whose === row.dataset.customer ? "" : row.dataset.customer));
    }
  };

  const prepareCases = () => {
    for (const cell of all("[data-case]")) {
      const button = document.createElement("button");
      button.type = "button";
      button.className = "case";
      button.title = "show it in the network";
      cell.replaceWith(button);
      button.append(cell);
      button.addEventListener("click", () => {
        chosen = cell.dataset.case.split(" ").map(Number);
        show();
        by("try").scrollIntoView();
      });
    }
  };

  prepareDrawing();
  prepareNames();
  prepareCases();
  document.querySelector(".panel").hidden = false;
  by("large").addEventListener("change", (event) => drawing.parentElement.classList.toggle("large", event.target.checked));
  by("clear").addEventListener("click", () => {
    chosen = [];
    show();
  });
  by("whose").addEventListener("change", (event) => follow(event.target.value));
  by("choose").addEventListener("change", (event) => {
    if (event.target.value !== "") toggle(+event.target.value);
    event.target.value = "";
  });
  show();
})();
