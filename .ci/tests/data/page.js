"use strict";
// Stands behind the script of a page in its test: presses keys and buttons, and hands what the page shows to the page around it.
{
  const press = key => document.dispatchEvent(new KeyboardEvent("keydown", { key, bubbles: true, cancelable: true }));
  const text = id => document.getElementById(id).textContent;
  const click = (id, name) => document.querySelector(`#${id} [data-name="${name}"]`).click();
  const type = words => { const find = document.getElementById("find"); find.value = words; find.dispatchEvent(new Event("input")); };
  const shownCount = () => text("place").replace(/.* of /, "");
  const said = [];
  const say = (...parts) => said.push(parts.join("\t"));

  // Each entry as the page shows it, step by step.
  function walk() {
    press("Home");
    for (let n = 1; n <= run.entries.length; n++) {
      const row = document.getElementById(`e${n}`);
      const picture = document.querySelector("#lines .chosen .arrow") ? "arrow" : "-";
      const same = row?.getAttribute("aria-selected") === "true" && row.querySelector(".say").firstChild.textContent === text("says");
      say("entry", location.hash, text("place"), same ? "row" : "no row", picture, text("says"), text("line"));
      press("j");
    }
  }

  const tests = {
    walk,
    steps() {
      press("End"); say(text("place"), location.hash);
      press("k"); say(text("place"));
      press("Home"); say(text("place"), document.getElementById("before").disabled);
      document.getElementById("next").click(); say(text("place"));
      press("v"); say(text("line").split(" ")[0]);
      press("["); say(text("line").split(" ").slice(0, 3).join(" "));
      press("]"); press("]"); say(text("line"));
      document.querySelectorAll("#about .origin a").forEach(link => say(link.textContent));
      document.querySelector("#about .origin a").click(); say(text("line"));
      document.getElementById("last").click();
      const row = document.querySelector("#list .row"); row.click(); say(location.hash === `#line=${row.dataset.line}`);
    },
    filters() {
      click("lane-choices", "c"); say(shownCount(), location.hash);
      click("lane-choices", "c"); say(shownCount());
      click("kind-choices", "bu"); say(shownCount()); click("kind-choices", "bu");
      click("group-choices", "posts"); say(shownCount(), location.hash.includes("no-entries=posts"));
      document.getElementById("all").click(); say(shownCount());
      const home = document.getElementById("home"); home.value = "2001:db8:1::77"; home.dispatchEvent(new Event("change")); say(shownCount());
      document.getElementById("all").click();
    },
    finds() {
      press("Home"); type("8 hot"); say(text("count"), text("line").slice(0, 14), document.querySelectorAll("#list .found").length);
      press("n"); say(text("count")); press("N"); press("N"); say(text("count"));
      type("no such words"); say(text("count"));
      type("authorization 20bd1b28"); say(text("count"));
      type("");
    },
    address() { say(text("place"), text("count"), document.querySelector('#lane-choices [aria-pressed="false"]')?.textContent); },
    many() {
      say(document.querySelectorAll("#list .row").length < 100); press("End"); say(text("place"), document.querySelectorAll("#list .row").length < 100);
      type("line that is far away"); say(text("count"));
      document.getElementById("chart").scrollTop = 100000; drawRows(); say(document.querySelectorAll("#list .row").length < 100, document.getElementById("e3571") !== null);
    },
    known() { run.known = { c: [[1, "nothing yet"], [37, "a care-of address"]] }; press("Home"); press("v"); say(document.querySelector(".known").textContent); },
  };
  for (const name of window.name.split(" ")) tests[name]();
  parent.postMessage(said.join("\n") || "-", "*");
}
