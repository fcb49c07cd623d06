"use strict";
// Filters the failures by words and by the customer that is lost.
(() => {
  const form = document.querySelector("form.filter");
  if (!form) return;
  const rows = [...document.querySelectorAll("tr[data-words]")];
  const told = form.querySelector("output");

  const fits = (row, words, customer, taking) => {
    const taken = row.dataset.taken.split(" ").filter(Boolean);
    const shown = row.dataset.words.toLowerCase().replaceAll("-", "–");
    return shown.includes(words) && (!customer || taken.includes(customer)) && (!taking || taken.length > 0);
  };

  const apply = () => {
    const words = form.elements.words.value.trim().toLowerCase().replaceAll("-", "–");
    const customer = form.elements.customer.value;
    const taking = form.elements.taking.checked;
    for (const row of rows) row.hidden = !fits(row, words, customer, taking);
    const listed = rows.filter((row) => row.closest("table.failures"));
    const left = listed.filter((row) => !row.hidden).length;
    told.textContent = left === listed.length ? "" : `${left} of ${listed.length} failures are shown`;
  };

  form.addEventListener("input", apply);
  form.addEventListener("submit", (event) => event.preventDefault());
  apply();
})();
