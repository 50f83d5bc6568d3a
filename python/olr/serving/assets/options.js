"use strict";
// The profile, the tolerances and the other numbers as fields.
//
//   const fields = fieldsOf({ place, profiles, profile, groups, onChange: () => ... });
//
// `place` is a form, a profile { name, about, tolerances }, `profile` the name of the one that is chosen at first, and a group { title,
// numbers }. The select of the profile stands in the first group. By default a field has the number of the profile that is chosen, or else
// its own. `fields.values()` has the texts of those that aren't as they are by default, and `profile` if it isn't that one,
// `fields.set(values)` fills them, and `fields.isRight()` says whether all are in their ranges; else the first that isn't tells so.
function fieldsOf({ place, profiles, profile, groups, onChange }) {
  const inputs = new Map();
  const hints = new Map();
  const select = document.createElement("select");
  const fieldOf = (number) => {
    const label = document.createElement("label");
    const input = document.createElement("input");
    Object.assign(input, { type: "number", min: number.least, max: number.greatest, step: 1, required: true, id: `option-${number.name}` });
    const hint = document.createElement("span");
    const purpose = document.createElement("span");
    purpose.className = "unseen";
    purpose.textContent = `${number.purpose}: `;
    const text = document.createElement("span");
    hint.className = "small";
    hint.id = `hint-${number.name}`;
    hint.append(purpose, text);
    input.setAttribute("aria-describedby", hint.id);
    const name = document.createElement("b");
    name.textContent = number.name;
    label.title = `${number.purpose.charAt(0).toUpperCase()}${number.purpose.slice(1)}.`;
    label.append(name, input, hint);
    inputs.set(number.name, input);
    hints.set(number.name, { number, text });
    return label;
  };
  const profileField = () => {
    const label = document.createElement("label");
    label.className = "profile";
    select.id = "option-profile";
    select.append(...profiles.map(({ name }) => new Option(name, name)));
    const hint = document.createElement("span");
    hint.className = "small";
    hint.id = "hint-profile";
    const purpose = document.createElement("span");
    purpose.className = "unseen";
    purpose.textContent = "the tolerances that aren't changed: ";
    hint.append(purpose, `else ${profile}`);
    select.setAttribute("aria-describedby", hint.id);
    const name = document.createElement("b");
    name.textContent = "profile";
    label.title = profiles.map(({ about }) => `${about.charAt(0).toUpperCase()}${about.slice(1)}.`).join(" ");
    label.append(name, select, hint);
    return label;
  };
  groups.forEach(({ title, numbers }, index) => {
    const group = document.createElement("fieldset");
    const legend = document.createElement("legend");
    legend.textContent = title;
    group.append(legend, ...(index ? [] : [profileField()]), ...numbers.map(fieldOf));
    place.append(group);
  });
  const reset = document.createElement("button");
  reset.type = "button";
  reset.textContent = "Reset";
  reset.addEventListener("click", () => { set({}); onChange(); });
  place.append(reset);

  // The numbers that hold where none are given.
  const known = (name) => profiles.find((one) => one.name === name) || profiles.find((one) => one.name === profile);
  const defaultOf = (number, name) => known(name).tolerances[number.name] ?? number.default;
  const fillDefaults = (name) => hints.forEach(({ number, text }, key) => {
    const value = defaultOf(number, name);
    inputs.get(key).defaultValue = String(value);
    text.textContent = `${number.least} to ${number.greatest.toLocaleString("en")} ${number.unit}, else ${value}`;
  });

  const changed = () => [...inputs].filter(([, input]) => input.value !== input.defaultValue).map(([name, input]) => [name, input.value]);
  const values = () => ({ ...(select.value === profile ? {} : { profile: select.value }), ...Object.fromEntries(changed()) });
  const set = (given) => {
    select.value = known(given.profile).name;
    select.classList.toggle("changed", select.value !== profile);
    fillDefaults(select.value);
    inputs.forEach((input, name) => {
      input.value = name in given ? given[name] : input.defaultValue;
      input.classList.toggle("changed", input.value !== input.defaultValue);
    });
  };
  const isRight = () => place.reportValidity();
  place.addEventListener("change", () => {
    set(values());
    if (isRight()) onChange();
  });
  place.addEventListener("submit", (event) => event.preventDefault());
  fillDefaults(profile);
  return { values, set, isRight, names: ["profile", ...inputs.keys()] };
}
