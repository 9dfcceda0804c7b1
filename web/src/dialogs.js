// Questions and short texts over the page.
import { button, make } from './elements.js';

/** Shows a dialog with buttons `[text, value]`, and gives the value of the one that is chosen; null where it is closed. */
export function ask_user(title, body, choices) {
  return new Promise((resolve) => {
    const node = make('dialog', { class: 'dialog', 'aria-label': title });
    const end = (value) => { node.close(); node.remove(); resolve(value); };
    node.append(make('h2', {}, title), make('div', {}, body), make('div', { class: 'choices' },
      choices.map(([text, value], at) => button(text, () => end(value), at === choices.length - 1 ? { class: 'primary', autofocus: true } : {}))));
    node.addEventListener('cancel', () => end(null));
    document.body.append(node);
    node.showModal();
  });
}

/** Asks for a line of text; `fault_of` says what is wrong with one, or nothing. Gives the text, or null. */
export function ask_for_text(title, label, value, fault_of) {
  return new Promise((resolve) => {
    const input = make('input', { value, 'aria-label': label, autofocus: true });
    const fault = make('p', { class: 'bad', role: 'alert' });
    const node = make('dialog', { class: 'dialog', 'aria-label': title });
    const end = (given) => { node.close(); node.remove(); resolve(given); };
    const take = () => {
      fault.textContent = fault_of(input.value.trim());
      if (!fault.textContent) end(input.value.trim());
    };
    node.append(make('form', { on_submit: (event) => { event.preventDefault(); take(); } }, make('h2', {}, title),
      make('label', { class: 'field' }, make('span', {}, label), input), fault,
      make('div', { class: 'choices' }, button('Cancel', () => end(null)), make('button', { class: 'primary' }, 'OK'))));
    node.addEventListener('cancel', () => end(null));
    document.body.append(node);
    node.showModal();
    input.select();
  });
}

/** Shows a text until it is closed. */
export function show_sheet(title, body) {
  return ask_user(title, body, [['Close', null]]);
}
