
"use strict";
(() => {
  const by = (id) => document.getElementById(id);
  const table = by("table");
  const runs = [...table.tBodies];
  const numbers = new Set(["order", "frame", "frames"]);
  for (const run of runs) run.words = run.textContent.toLowerCase();

  const filter = () => {
    const words = by("search").value.toLowerCase().split(/\s+/).filter(Boolean);
    let shown = 0;
    for (const run of runs) {
      const fits = ["verdict", "by", "sender"].every((key) => by(key).value === "" || by(key).value === run.dataset[key]) &&
        words.every((word) => run.words.includes(word));
      run.hidden = !fits;
      shown += fits;
    }
    by("shown").value = `${shown} of ${runs.length}`;
    by("none").hidden = shown > 0;
  };

  const sort = (button) => {
    const head = button.parentElement;
    const down = head.getAttribute("aria-sort") === "ascending";
    for (const other of table.tHead.querySelectorAll("th")) other.setAttribute("aria-sort", "none");
    head.setAttribute("aria-sort", down ? "descending" : "ascending");
    const key = button.dataset.key;
    const compare = (one, other) => numbers.has(key) ? one.dataset[key] - other.dataset[key] :
      one.dataset[key].localeCompare(other.dataset[key], "en", { numeric: true });
    runs.sort((one, other) => (down ? -1 : 1) * compare(one, other) || one.dataset.place - other.dataset.place);
    table.append(...runs);
  };

  const copy = (button) => {
    const text = button.parentElement.querySelector("textarea");
    text.select();
    const done = () => { button.textContent = "Copied"; setTimeout(() => { button.textContent = "Copy"; }, 2000); };
    if (navigator.clipboard) navigator.clipboard.writeText(text.value).then(done, () => document.execCommand("copy") && done());
    else if (document.execCommand("copy")) done();
  };

  by("filters").addEventListener("input", filter);
  by("filters").addEventListener("submit", (event) => event.preventDefault());
  by("filters").addEventListener("reset", () => setTimeout(() => { filter(); table.classList.remove("brief"); }));
  by("details").addEventListener("change", (event) => table.classList.toggle("brief", !event.target.checked));
  table.tHead.addEventListener("click", (event) => { const button = event.target.closest("button"); if (button) sort(button); });
  by("senders").addEventListener("click", (event) => {
    const button = event.target.closest("button");
    if (!button) return;
    by("sender").value = button.dataset.sender;
    by("by").value = button.dataset.by || "";
    by("verdict").value = "";
    by("search").value = "";
    filter();
    by("runs").scrollIntoView();
  });
  by("letters").addEventListener("click", (event) => { const button = event.target.closest(".copy"); if (button) copy(button); });
  filter();
})();
