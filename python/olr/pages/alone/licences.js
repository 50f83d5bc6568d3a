"use strict";
// The licences of what the page carries are unpacked once somebody looks at them.
(() => {
  const shown = document.getElementById("licences");
  shown.addEventListener("toggle", async () => {
    const { licences } = await unpacked(document.getElementById("packed-licences").textContent);
    shown.querySelector("pre").textContent = new TextDecoder().decode(licences);
  }, { once: true });
})();
