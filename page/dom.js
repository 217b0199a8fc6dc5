// Elements of the page. Every field is made here, so none lacks the attributes that keep a browser from storing what is typed.

/** @typedef {Node | string | null} Child */
/** @typedef {Record<string, string | boolean | ((event: any) => void)>} Attributes */

/**
 * Makes an element. An attribute that is a function listens to the event of that name. `true` sets an attribute without a value,
 * and `false` leaves it out.
 *
 * @template {keyof HTMLElementTagNameMap} T
 * @param {T} tag
 * @param {Attributes} [attributes]
 * @param {Child[]} children
 * @returns {HTMLElementTagNameMap[T]}
 */
export function element(tag, attributes = {}, ...children) {
  const made = document.createElement(tag);
  for (const [name, value] of Object.entries(attributes)) {
    if (typeof value === "function") made.addEventListener(name, value);
    else if (value !== false) made.setAttribute(name, value === true ? "" : value);
  }
  for (const child of children) if (child !== null) made.append(child);
  return made;
}

/**
 * @param {string} text
 * @param {string} [kind]
 */
export function paragraph(text, kind = "") {
  return element("p", kind ? { class: kind } : {}, text);
}

// So many milliseconds after a screen has changed, a click was meant for what stood there before.
const LATE = 600;
let changed = -LATE;

/** Takes into account that something else stands at each place of the screen now. */
export function tellChanged() {
  changed = performance.now();
}

/**
 * Returns what listens to a button. It doesn't take the second press of a double click, or a late one, which would press what has come to
 * this place. A key has no place.
 *
 * @param {() => void} onPress
 */
function pressed(onPress) {
  return (/** @type {MouseEvent} */ event) => {
    const isLate = event.detail === 1 && event.timeStamp - changed < LATE;
    if (!(event.detail > 1 || isLate)) onPress();
  };
}

/**
 * @param {string} label
 * @param {() => void} onPress
 * @param {string} [kind]
 */
export function button(label, onPress, kind = "") {
  return element("button", { type: "button", class: kind, click: pressed(onPress) }, label);
}

/** The kind of the button that goes back. */
export const BACK = "back";

const CONCEALED = "concealed";

/**
 * Marks an element that shows or holds something secret. `empty` is called when the tab is hidden and when the screen changes.
 *
 * @param {HTMLElement} it
 * @param {() => void} empty
 */
export function concealLater(it, empty) {
  it.classList.add(CONCEALED);
  it.addEventListener(CONCEALED, empty);
}

/**
 * Empties what is marked inside an element.
 *
 * @param {HTMLElement} box
 */
export function concealIn(box) {
  for (const it of box.querySelectorAll(`.${CONCEALED}`)) it.dispatchEvent(new Event(CONCEALED));
}

// A browser writes what stands in a field to disk unless the field itself says `autocomplete="off"`.
const KEPT_NOWHERE = {
  autocomplete: "off",
  autocorrect: "off",
  autocapitalize: "off",
  spellcheck: "false",
  translate: "no",
};

/**
 * @param {string} type
 * @param {Attributes} [attributes]
 */
export function input(type, attributes = {}) {
  return element("input", { type, ...KEPT_NOWHERE, ...attributes });
}

let made = 0;

/** Returns a new identifier for an element that another element refers to. */
function newId() {
  made += 1;
  return `it${made}`;
}

/**
 * Makes a field with its label above it, and with a hint that is read together with the label.
 *
 * @param {string} label
 * @param {string} type
 * @param {{hint?: string, attributes?: Attributes}} [more]
 */
export function labelled(label, type, more = {}) {
  const { hint = "", attributes = {} } = more;
  const id = newId();
  const told = hint ? element("p", { id: newId(), class: "hint" }, hint) : null;
  const field = input(type, { id, ...(told ? { "aria-describedby": told.id } : {}), ...attributes });
  const box = element("div", { class: "field" }, element("label", { for: id }, label), told, field);
  return { box, field };
}

/**
 * Makes a box to tick, with its label beside it.
 *
 * @param {string} label
 */
export function tick(label) {
  const field = input("checkbox");
  return { box: element("label", { class: "tick" }, field, element("span", {}, label)), field };
}

/**
 * Makes a hidden field that a button can show.
 *
 * @param {string} label
 * @param {{show: string, hide: string, hint?: string}} texts
 */
export function hidden(label, { show, hide, hint = "" }) {
  const { box, field } = labelled(label, "password", { hint });
  const toggle = element("button", { type: "button", class: "small" });
  const set = (/** @type {boolean} */ isShown) => {
    field.type = isShown ? "text" : "password";
    toggle.textContent = isShown ? hide : show;
    toggle.setAttribute("aria-label", `${toggle.textContent}: ${label}`);
  };
  toggle.addEventListener("click", () => set(field.type === "password"));
  concealLater(field, () => set(false));
  set(false);
  box.append(toggle);
  return { box, field };
}

/**
 * Makes a large button with a hint below its label. A screen reader says the label as its name, and then the hint.
 *
 * @param {string} label
 * @param {string} hint
 * @param {() => void} onPress
 * @param {Attributes} [attributes]
 */
export function large(label, hint, onPress, attributes = {}) {
  const name = element("strong", { id: newId() }, label);
  const told = hint ? element("span", { id: newId() }, hint) : null;
  /** @type {Attributes} */
  const described = told ? { "aria-describedby": told.id } : {};
  return element("button", { type: "button", "aria-labelledby": name.id, ...described, click: pressed(onPress), ...attributes }, name, told);
}

/**
 * Makes a group of choices, one of which is taken: large targets, which the arrow keys move between.
 *
 * @template {string} K
 * @param {string} legend
 * @param {{key: K, label: string, hint?: string}[]} options
 * @param {K | null} first the choice that is taken at first, or null if none is
 * @param {(key: K) => void} onChoose
 */
export function choice(legend, options, first, onChoose) {
  const id = newId();
  const take = (/** @type {number} */ index) => {
    buttons.forEach((it, at) => {
      it.setAttribute("aria-checked", String(at === index));
      it.tabIndex = at === index ? 0 : -1;
    });
    onChoose(options[index].key);
    // As a field does when it changes.
    buttons[index].dispatchEvent(new Event("input", { bubbles: true }));
  };
  const move = (/** @type {KeyboardEvent} */ event) => {
    const step = { ArrowDown: 1, ArrowRight: 1, ArrowUp: -1, ArrowLeft: -1 }[event.key];
    if (!step) return;
    event.preventDefault();
    const at = buttons.findIndex((it) => it.tabIndex === 0);
    const next = (at + step + buttons.length) % buttons.length;
    take(next);
    buttons[next].focus();
  };
  const buttons = options.map(({ key, label, hint = "" }, index) => {
    const isReached = first === null ? index === 0 : key === first;
    const state = { role: "radio", "aria-checked": String(key === first), tabindex: isReached ? "0" : "-1" };
    return large(label, hint, () => take(index), state);
  });
  return element(
    "div",
    { class: "choice", role: "radiogroup", "aria-labelledby": id, keydown: move },
    element("p", { id, class: "legend" }, legend),
    ...buttons,
  );
}
