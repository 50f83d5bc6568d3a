"use strict";
// Draws the data of the page.
(() => {
  const find = (id) => document.getElementById(id);
  const scene = JSON.parse(find("data").textContent);
  pictureOf({ map: find("map"), panel: find("panel"), tiles: scene.tiles }).show(scene);
  document.body.dataset.ready = "yes";
})();
