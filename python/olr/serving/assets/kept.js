"use strict";
// What a tab keeps of its list: through a reload, until it is closed. Where the storage is forbidden or full nothing is kept.
const KEPT = `olr list ${location.pathname}`;

// Keeps the first one of some texts that there is room for; each is made by a function, and is null where there is nothing to keep.
function keep(...texts) {
  for (const make of texts) {
    try {
      sessionStorage.removeItem(KEPT);
      const text = make();
      if (text !== null) sessionStorage.setItem(KEPT, text);
      return;
    } catch {
      // There is no room for it.
    }
  }
}

// What was kept, as it was before JSON; or null.
function kept() {
  try {
    return JSON.parse(sessionStorage.getItem(KEPT));
  } catch {
    return null;
  }
}
