// Elements of the page.

/** The element with this id. */
export const at = (id) => document.getElementById(id);

/** A new element. */
export function element(name, attributes = {}, ...children) {
  const made = document.createElement(name);
  for (const [key, value] of Object.entries(attributes)) made.setAttribute(key, value);
  made.append(...children);
  return made;
}

export const pause = (milliseconds) => new Promise((done) => setTimeout(done, milliseconds));

export const grouped = (number) => number.toLocaleString('en');
