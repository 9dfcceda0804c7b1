// Makes elements of the page.

const DRAWN_IN = 'http://www.w3.org/2000/svg';

/** Sets attributes, properties and listeners of an element: `on_click` listens, `value`, `checked` and the like are properties. */
function set_all(node, properties) {
  for (const [name, value] of Object.entries(properties)) {
    if (name.startsWith('on_')) node.addEventListener(name.slice(3), value);
    else if (['value', 'checked', 'disabled', 'open', 'hidden', 'readOnly', 'selected'].includes(name)) node[name] = value;
    else if (value !== false && value !== null && value !== undefined) node.setAttribute(name, value === true ? '' : value);
  }
  return node;
}

function append_all(node, children) {
  node.append(...children.flat(9).filter((child) => child !== null && child !== undefined && child !== false));
  return node;
}

/** An element with its properties and children; a child may be a text, an element, a list of these, or null. */
export function make(tag, properties = {}, ...children) {
  return append_all(set_all(document.createElement(tag), properties), children);
}

/** The same for an element of a drawing. */
export function draw(tag, properties = {}, ...children) {
  return append_all(set_all(document.createElementNS(DRAWN_IN, tag), properties), children);
}

/** Gives an element these children in place of those that it has. */
export function fill(node, ...children) {
  node.replaceChildren();
  return append_all(node, children);
}

/** A button with a text and what it does. */
export function button(text, act, properties = {}) {
  return make('button', { type: 'button', on_click: act, ...properties }, text);
}

/** A control with its label before it. */
export function labelled(text, control, properties = {}) {
  return make('label', { class: 'field', ...properties }, make('span', {}, text), control);
}

/** A choice of one of `[value, text]`. */
export function choice(options, value, act, properties = {}) {
  const node = make('select', { on_change: () => act(node.value), ...properties },
    options.map(([own, text]) => make('option', { value: own, selected: own === value }, text)));
  return node;
}

/** Calls `act` once, `delay` milliseconds after the last call of what is given back. */
export function after_pause(delay, act) {
  let timer = 0;
  return (...words) => {
    clearTimeout(timer);
    timer = setTimeout(() => act(...words), delay);
  };
}
