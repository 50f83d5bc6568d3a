"use strict";
// One file with two pages: its address says which of them it is. With a question in it, it is the page that answers.
(async () => {
  const files = await unpacked(document.getElementById("packed").textContent).catch((error) => {
    document.getElementById("unable").hidden = false;
    throw error;
  });
  const page = new TextDecoder().decode(files[location.search ? "asking.html" : "report.html"]);
  document.open();
  document.write(page);
  document.close();
})();
