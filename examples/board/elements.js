/** Elements and their texts. Texts of the network become texts of the page, and nothing else. */

/** An element with attributes, its text or its children. */
export function element(name, attributes = {}, ...content) {
  const node = document.createElement(name);
  for (const [key, value] of Object.entries(attributes)) node.setAttribute(key, value);
  node.append(...content);
  return node;
}

/** Sets a text where it is another one: what doesn't change isn't read out anew. */
export function say(node, text) {
  if (node.textContent !== text) node.textContent = text;
}
