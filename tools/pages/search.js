// The search box: names from index.js, the best first. It needs no server.
"use strict";
(function () {
  const box = document.getElementById("search");
  const list = document.getElementById("hits");
  const rows = window.FOUND || [];
  const keys = rows.map((row) => row[0].toLowerCase());
  let chosen = -1;

  // How well a name answers: the name itself, its last part, its beginning, within it; or the line that tells of it.
  function weight(key, line, asked) {
    const last = key.split(/::|\./).pop();
    if (key === asked || last === asked) return 0;
    if (last.startsWith(asked)) return 1;
    if (key.startsWith(asked)) return 2;
    if (key.includes(asked)) return 3;
    return asked.length > 2 && line.toLowerCase().includes(asked) ? 4 : -1;
  }

  // Calls and claims come before what they stand on.
  const ranks = { claim: 0, call: 1, law: 2, type: 1, trait: 1, crate: 1 };

  function find(asked) {
    const words = asked.toLowerCase().replace(/\(\)$/, "").split(/\s+/).filter(Boolean);
    if (!words.length) return [];
    const hits = [];
    rows.forEach((row, at) => {
      let sum = 0;
      for (const word of words) {
        const one = weight(keys[at], row[2], word);
        if (one < 0) return;
        sum += one;
      }
      hits.push([sum * 10 + (ranks[row[1]] ?? 3), row[0].length, row]);
    });
    hits.sort((a, b) => a[0] - b[0] || a[1] - b[1]);
    return hits.slice(0, 30).map((hit) => hit[2]);
  }

  function show() {
    const hits = find(box.value.trim());
    list.replaceChildren(...hits.map((row) => {
      const item = document.createElement("li");
      const link = document.createElement("a");
      link.href = row[3];
      for (const [kind, text] of [["b", row[0]], ["i", row[1]], ["span", row[2]]]) {
        const part = document.createElement(kind);
        part.textContent = text;
        link.append(part);
      }
      item.append(link);
      return item;
    }));
    if (box.value.trim() && !hits.length) {
      const none = document.createElement("li");
      none.className = "none";
      none.textContent = "Nothing of that name.";
      list.append(none);
    }
    list.hidden = !box.value.trim();
    chosen = -1;
  }

  function choose(step) {
    const links = [...list.querySelectorAll("a")];
    if (!links.length) return;
    chosen = (chosen + step + links.length) % links.length;
    links.forEach((link, at) => link.classList.toggle("chosen", at === chosen));
    links[chosen].scrollIntoView({ block: "nearest" });
  }

  box.addEventListener("input", show);
  box.addEventListener("focus", show);
  box.addEventListener("keydown", (event) => {
    if (event.key === "ArrowDown" || event.key === "ArrowUp") {
      event.preventDefault();
      choose(event.key === "ArrowDown" ? 1 : -1);
    } else if (event.key === "Enter") {
      const links = list.querySelectorAll("a");
      const link = links[Math.max(chosen, 0)];
      if (link) {
        list.hidden = true;
        location.href = link.href;
      }
    } else if (event.key === "Escape") {
      list.hidden = true;
      box.blur();
    }
  });
  document.addEventListener("click", (event) => {
    if (!event.target.closest(".finder") || event.target.closest("#hits a")) list.hidden = true;
  });
  document.addEventListener("keydown", (event) => {
    if (event.key === "/" && !/INPUT|TEXTAREA/.test(document.activeElement.tagName)) {
      event.preventDefault();
      box.focus();
    }
  });

  // What a link leads to is shown, and all is printed.
  function open() {
    const place = location.hash && document.getElementById(decodeURIComponent(location.hash.slice(1)));
    for (let at = place; at; at = at.parentElement) if (at.tagName === "DETAILS") at.open = true;
    if (place) place.scrollIntoView();
  }
  window.addEventListener("hashchange", open);
  window.addEventListener("beforeprint", () => {
    for (const it of document.querySelectorAll("details.clauses-more")) it.open = true;
  });
  for (const button of document.querySelectorAll("button.copy")) {
    button.addEventListener("click", () => {
      const text = document.getElementById(button.dataset.of).textContent;
      navigator.clipboard.writeText(text).then(() => { button.textContent = "Copied"; }, () => {});
    });
  }
  open();
})();
