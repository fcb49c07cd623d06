"use strict";
// Looks the chosen failures up in the page's cases, and shows what becomes of each customer. No verdict is computed here.
(() => {
  const by = (id) => document.getElementById(id);
  const all = (selector, within = document) => [...within.querySelectorAll(selector)];
  const data = JSON.parse(by("data").textContent);
  const count = data.failures.length, most = 3, ring = by("ring");
  let triples = null, unpacking = data.triples !== null;
  const words = { k: "kept", i: "impaired", o: "over", l: "lost" };
  let chosen = [], whose = "", gone = "";

  // The place of a case in the list: nothing, each alone, each two; and of three in a list of its own.
  const placeOf = ([one, other]) => {
    if (other === undefined) return one === undefined ? 0 : one + 1;
    return 1 + count + (one * (2 * count - one - 1)) / 2 + other - one - 1;
  };
  const choose2 = (n) => (n * (n - 1)) / 2, choose3 = (n) => (n * (n - 1) * (n - 2)) / 6;
  const placeOfThree = ([one, other, third]) => choose3(count) - choose3(count - one) + choose2(count - one - 1) - choose2(count - other) + third - other - 1;

  const outcome = () => {
    const numbers = [...chosen].sort((a, b) => a - b);
    const place = numbers.length > 2 ? (triples?.[placeOfThree(numbers)] ?? 0) - 1 : data.cases[placeOf(numbers)] ?? -1;
    return data.outcomes[place] ?? null;
  };

  const unpack = async (text) => {
    const bytes = Uint8Array.from(atob(text), (letter) => letter.charCodeAt(0));
    const stream = new Blob([bytes]).stream().pipeThrough(new DecompressionStream("deflate"));
    return new Response(stream).arrayBuffer();
  };

  // Cases of three failures are packed, so that the page is small; each is two bytes, the lower one first.
  const unpackTriples = async () => {
    const [cases, outcomes] = await Promise.all([data.triples.cases, data.triples.outcomes].map(unpack));
    const view = new DataView(cases);
    data.outcomes.push(...JSON.parse(new TextDecoder().decode(outcomes)));
    triples = Uint16Array.from({ length: cases.byteLength / 2 }, (_, i) => view.getUint16(2 * i, true));
  };

  const missing = () => {
    if (chosen.length > 2 && unpacking) return "the cases of three failures are being unpacked.";
    if (chosen.length > 2 && data.triples && !triples) return "this browser can't unpack the cases of three failures.";
    if (chosen.length > data.depth) return "this case isn't in the page, which has cases of up to two failures.";
    return "this case isn't in the page, which has none that would mend what the script cut or forced.";
  };

  const namesOf = (results, letter) => data.circuits.filter((_, i) => results[i] === letter).map((circuit) => circuit[0]);

  const sentence = (found) => {
    const what = chosen.map((number) => data.failures[number][0]).join(" and ") || (data.left ? "Nothing more fails" : "Nothing fails");
    if (!found) return `${what}: ${missing()}`;
    const [impaired, over, lost] = ["i", "o", "l"].map((letter) => namesOf(found[1], letter));
    const kept = data.circuits.length - impaired.length - over.length - lost.length;
    const list = (names) => (names.length ? `: ${names.join(", ")}` : "");
    const also = impaired.length ? ` ${impaired.length} kept but impaired${list(impaired)}.` : "";
    return `${what}. ${lost.length} lost${list(lost)}. ${over.length} over protection${list(over)}.${also} ${kept} kept.`;
  };

  const angle = (position) => (2 * Math.PI * position) / data.size;
  const point = (radius, at) => `${(radius * Math.sin(at)).toFixed(1)} ${(-radius * Math.cos(at)).toFixed(1)}`;
  const arcTo = (radius, from, to) => {
    const parts = Math.max(1, Math.ceil(Math.abs(to - from) / 2));
    const ends = [...Array(parts).keys()].map((i) => from + ((to - from) * (i + 1)) / parts);
    return ends.map((end) => `A${radius} ${radius} 0 0 ${to > from ? 1 : 0} ${point(radius, end)}`).join(" ");
  };

  // The way of a customer that isn't lost: its arc, or to the first applied span of it, back on protection, and on from the last.
  const way = (number, [applied, results]) => {
    const [, start, length, working, protection, aside] = data.circuits[number];
    if (results[number] === "l") return "";
    const from = angle(start) + aside, to = angle(start + length) - aside;
    const struck = [...Array(length).keys()].filter((i) => applied.includes((start + i) % data.size));
    if (!struck.length) return `M${point(working, from)} ${arcTo(working, from, to)}`;
    const first = Math.max(angle(start + struck[0]), from), last = Math.min(angle(start + struck.at(-1) + 1), to);
    const out = first > from ? arcTo(working, from, first) : "", on = to > last ? arcTo(working, last, to) : "";
    const back = arcTo(protection, first, last - 2 * Math.PI);
    return `M${point(working, from)} ${out} L${point(protection, first)} ${back} L${point(working, last)} ${on}`;
  };

  // A failure of the case marks its own part of the drawing; a cut by a lost node, span or group marks the fibre too.
  const showRing = (found) => {
    const cut = chosen.flatMap((number) => data.failures[number][4]);
    for (const item of all(".button", ring)) {
      const number = chosen.find((one) => isOf(item, one)), kind = number === undefined ? "" : data.failures[number][1];
      item.classList.toggle("failing", kind !== "");
      item.dataset.kind = kind;
      item.setAttribute("aria-pressed", String(kind !== ""));
      item.classList.toggle("struck", cut.includes(item.dataset.fibre));
      if (item.dataset.switch) item.querySelector("text").textContent = { forced: "F", manual: "M" }[kind || item.dataset.left] ?? "";
    }
    all(".span", ring).forEach((item) => item.classList.toggle("is-applied", !!found && found[0].includes(data.failures[+item.dataset.failure][2])));
    all(".circuit", ring).forEach((item, i) => {
      for (const name of ["over", "lost"]) item.classList.toggle(name, !!found && words[found[1][i]] === name);
      item.classList.toggle("lit", String(i) === whose);
    });
    ring.classList.toggle("has-way", whose !== "");
    by("way").setAttribute("d", whose !== "" && found ? way(+whose, found) : "");
    by("way").setAttribute("class", whose !== "" && found ? words[found[1][whose]] : "");
  };

  const showCustomers = (found) => {
    all("#customers tr[data-customer]").forEach((row) => {
      const result = found ? words[found[1][+row.dataset.customer]] : "";
      const cell = row.querySelector(".now");
      cell.textContent = { over: "over protection" }[result] || result;
      cell.className = `now ${result}`;
    });
  };

  const showNames = () => {
    by("whose").value = whose;
    for (const row of all("#customers tr[data-customer]")) {
      row.classList.toggle("lit", row.dataset.customer === whose);
      row.querySelector(".name button").setAttribute("aria-pressed", String(row.dataset.customer === whose));
    }
  };

  const show = () => {
    const found = outcome();
    by("told").textContent = gone + sentence(found);
    gone = "";
    by("failed").replaceChildren(...chosen.map((number) => {
      const button = document.createElement("button");
      button.type = "button";
      button.textContent = `${data.failures[number][0]} ✕`;
      button.title = "take it away";
      button.addEventListener("click", () => toggle(number));
      return button;
    }));
    showRing(found);
    showCustomers(found);
    showNames();
  };

  const toggle = (number) => {
    if (chosen.includes(number)) chosen = chosen.filter((one) => one !== number);
    else {
      if (chosen.length === most) gone = `${data.failures[chosen[0]][0]} is taken away, since at most three failures are shown together. `;
      chosen = [...chosen, number].slice(-most);
    }
    show();
  };

  const set = (numbers) => {
    chosen = numbers;
    show();
  };

  // A fibre is cut or degraded, and a switch is forced or manual, as the choices beside the drawing say.
  const kindsOf = { fibre: ["fibre", "degraded"], switch: ["forced", "manual"] };
  const groupOf = (item) => (item.dataset.fibre ? "fibre" : "switch");
  const isAt = (item, [, kind, at, side]) => kindsOf[groupOf(item)].includes(kind) && item.dataset[groupOf(item)] === `${at} ${side}`;
  const isOf = (item, number) => (item.dataset.failure ? +item.dataset.failure === number : isAt(item, data.failures[number]));
  const numberOf = (item) => {
    if (item.dataset.failure) return +item.dataset.failure;
    const kind = document.querySelector(`input[name="${groupOf(item)}"]:checked`).value;
    return data.failures.findIndex((failure) => failure[1] === kind && isAt(item, failure));
  };

  const press = (item) => toggle(chosen.find((number) => isOf(item, number)) ?? numberOf(item));

  const prepareRing = () => {
    ring.classList.add("live");
    for (const item of all(".button", ring)) {
      item.setAttribute("tabindex", "0");
      item.setAttribute("role", "button");
      item.setAttribute("aria-label", item.querySelector("title").textContent);
      item.addEventListener("click", () => press(item));
      item.addEventListener("keydown", (event) => {
        if (event.key !== "Enter" && event.key !== " ") return;
        event.preventDefault();
        press(item);
      });
    }
  };

  const follow = (number) => {
    whose = number;
    show();
  };

  const prepareNames = () => {
    for (const row of all("#customers tr[data-customer]")) {
      const cell = row.querySelector(".name"), button = document.createElement("button");
      button.type = "button";
      button.title = "show its way in the ring";
      button.append(...cell.childNodes);
      cell.append(button);
      button.addEventListener("click", () => follow(whose === row.dataset.customer ? "" : row.dataset.customer));
    }
  };

  const prepareCases = () => {
    for (const cell of all("[data-case]")) {
      const button = document.createElement("button");
      button.type = "button";
      button.className = "case";
      button.title = "show it in the ring";
      const numbers = cell.dataset.case ? cell.dataset.case.split(" ").map(Number) : [];
      if (cell.matches("#matrix *")) button.setAttribute("aria-label", `${numbers.map((number) => data.failures[number][0]).join(" and ")}: ${cell.textContent} lost`);
      cell.replaceWith(button);
      button.append(cell);
      button.addEventListener("click", () => {
        set(numbers);
        by("try").scrollIntoView();
      });
    }
  };

  prepareRing();
  prepareNames();
  prepareCases();
  document.querySelector(".panel").hidden = false;
  by("large").addEventListener("change", (event) => ring.parentElement.classList.toggle("large", event.target.checked));
  by("clear").addEventListener("click", () => set([]));
  by("whose").addEventListener("change", (event) => follow(event.target.value));
  by("choose").addEventListener("change", (event) => {
    if (event.target.value !== "") toggle(+event.target.value);
    event.target.value = "";
  });
  show();
  if (unpacking) {
    unpackTriples().catch(() => {}).then(() => {
      unpacking = false;
      show();
    });
  }
})();
