"use strict";
// Shows any round of a settle step: in the drawing of the ring, in the table of its nodes, and as a line across the diagram.
(() => {
  const SVG = "http://www.w3.org/2000/svg";

  // What holds at each node in a round.
  const at = (data, round) => {
    const rows = [...data.begin];
    for (const [when, place, row] of data.changes) {
      if (when > round) break;
      rows[place] = row;
    }
    return rows.map((row) => data.rows[row]);
  };

  const milliseconds = (frames) => (frames * 0.125).toFixed(3);

  const showFibre = (group, [code, letters, words], before) => {
    group.setAttribute("class", `signal code-${code}`);
    group.classList.toggle("new", before[1] !== letters);
    group.querySelector(".letters").textContent = letters;
    group.querySelector("title").textContent = words;
  };

  const showNode = (group, [state, shown], before) => {
    group.dataset.state = state;
    group.querySelector(".state").textContent = shown;
    group.classList.toggle("new", before[1] !== shown);
  };

  // A cell is a text, or of a word its two bytes and its letters.
  const fill = (place, cell) => {
    if (typeof cell === "string") {
      place.textContent = cell;
      return;
    }
    const code = document.createElement("code");
    code.textContent = cell[0];
    place.replaceChildren(code, ` ${cell[1]}`);
  };

  const showRow = (row, cells, before) => {
    cells.forEach((cell, number) => {
      const place = row.cells[number + 1];
      fill(place, cell);
      place.classList.toggle("changed-cell", String(before[number]) !== String(cell));
    });
  };

  const prepare = (player) => {
    const data = JSON.parse(player.querySelector("script").textContent);
    const slider = player.querySelector("input"), output = player.querySelector("output");
    const ring = player.querySelector(".signalring"), rows = [...player.querySelectorAll("tbody tr")];
    const diagram = player.closest("section").querySelector(".spacetime");
    const line = document.createElementNS(SVG, "line");
    line.setAttribute("class", "now");
    line.setAttribute("x1", "0");
    line.setAttribute("x2", String(diagram.viewBox.baseVal.width));
    diagram.append(line);

    const show = (round) => {
      const held = at(data, round), before = at(data, round - 1), frames = round - data.first;
      slider.value = String(round);
      output.textContent = frames < 0 ? `${round}, before the step` : `${round}, ${milliseconds(frames)} ms`;
      slider.setAttribute("aria-valuetext", output.textContent);
      held.forEach((row, place) => {
        const past = round === 0 ? row : before[place];
        showNode(ring.querySelector(`[data-node="${place}"]`), row, past);
        ["west", "east"].forEach((side, number) => {
          showFibre(ring.querySelector(`[data-fibre="${place} ${side}"]`), row[2][number], past[2][number]);
        });
        showRow(rows[place], row[3], past[3]);
      });
      const y = String(data.ys[frames + 1]);
      line.setAttribute("y1", y);
      line.setAttribute("y2", y);
    };

    const jump = (way) => {
      const now = Number(slider.value), whens = data.changes.map(([when]) => when);
      const to = way > 0 ? whens.find((when) => when > now) : whens.findLast((when) => when < now);
      show(to ?? Number(way > 0 ? slider.max : slider.min));
    };

    const onDiagram = (event) => {
      const place = diagram.createSVGPoint();
      place.x = event.clientX;
      place.y = event.clientY;
      const { y } = place.matrixTransform(diagram.getScreenCTM().inverse());
      const near = data.ys.reduce((best, one, at) => (Math.abs(one - y) < Math.abs(data.ys[best] - y) ? at : best), 0);
      const round = data.first - 1 + near;
      show(Math.min(Number(slider.max), Math.max(Number(slider.min), round)));
    };

    slider.addEventListener("input", () => show(Number(slider.value)));
    player.querySelector(".back").addEventListener("click", () => jump(-1));
    player.querySelector(".on").addEventListener("click", () => jump(1));
    diagram.addEventListener("click", onDiagram);
    player.querySelector(".still").hidden = true;
    player.querySelector(".slide").hidden = false;
    show(data.until);
  };

  document.querySelectorAll(".player").forEach(prepare);
})();
