// Small helpers for the elements of the page.

/**
 * @param {string} id
 * @returns {HTMLInputElement & HTMLDialogElement} which of them it is, and whether it is either, index.html says
 */
export function byId(id) {
  return /** @type {any} */ (document.getElementById(id));
}

// An element with attributes and children, which are elements or texts.
export function element(name, attributes = {}, ...children) {
  const made = document.createElement(name);
  for (const [key, value] of Object.entries(attributes)) made.setAttribute(key, value);
  made.append(...children);
  return made;
}

export function show(target, is_shown) {
  target.hidden = !is_shown;
}

/**
 * @param {string} selector
 * @returns {NodeListOf<HTMLElement>}
 */
function all(selector) {
  return document.querySelectorAll(selector);
}

// Puts the texts of index.html into their places, by the names there.
export function fill(texts, language) {
  document.documentElement.lang = language;
  for (const target of all("[data-words]")) target.textContent = texts[target.dataset.words];
  for (const target of all("[data-label]")) target.setAttribute("aria-label", texts[target.dataset.label]);
}
