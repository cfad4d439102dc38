// Runs the script of a page without a browser, then other lines that use the page, and prints what these put into
// `said`: node page.js PAGE LINES [HASH], with this part of the page's address
"use strict";
const fs = require("fs");
const [page, lines] = process.argv.slice(2, 4).map(path => fs.readFileSync(path, "utf8"));

class Element {
  constructor() {
    Object.assign(this, { heard: {}, style: {}, value: "", textContent: "", checked: false, clientWidth: 1000 });
  }
  addEventListener(kind, act) { (this.heard[kind] ||= []).push(act); }
  dispatchEvent(event) { for (const act of this.heard[event.type] || []) act(event); }
  click() { this.dispatchEvent({ type: "click" }); }
  focus() { document.activeElement = this; }
  select() { this.isSelected = true; }
  blur() { document.activeElement = null; }
  add() {}
  replaceChildren(...children) { this.children = children; }
  getBoundingClientRect() { return { left: 0, top: 0, width: 1000, height: 400 }; }
  // What is drawn isn't looked at.
  getContext() { return new Proxy({}, { get: () => () => {}, set: () => true }); }
}

const elements = {};
const document = { activeElement: null, createElement: () => new Element(), getElementById: id => (elements[id] ||= new Element()) };
const location = { hash: process.argv[4] ?? "" };
const history = { replaceState: (state, title, address) => { location.hash = address === "#" ? "" : address; } };
const window = Object.assign(new Element(), { innerWidth: 1000, innerHeight: 400, devicePixelRatio: 1, location, history });
const part = begin => page.split(begin)[1].split("</script>")[0];
document.getElementById("data").textContent = part('<script id="data" type="application/json">');
const said = {};
new Function("document", "window", "Option", "said", part("<script>\n") + lines)(document, window, class {}, said);
console.log(JSON.stringify(said));
