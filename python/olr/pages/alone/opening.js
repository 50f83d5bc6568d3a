"use strict";
// A page that was made for a reference opens with it, as if its address had it.
(() => {
  const { open } = JSON.parse(document.getElementById("data").textContent);
  if (open && location.search === "") history.replaceState(null, "", open);
})();
