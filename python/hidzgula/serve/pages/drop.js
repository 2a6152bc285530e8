"use strict";
// Sends a log once it is dropped or chosen. Without this script the button does.
const form = document.getElementById("form"), log = document.getElementById("log"), said = document.getElementById("said");
document.getElementById("show").hidden = true;
log.addEventListener("change", () => {
  const file = log.files[0];
  if (!file) return;
  if (file.size > Number(form.dataset.most) * 1048576) {
    said.textContent = file.name + " has more than " + form.dataset.most + " MB";
    log.value = "";
    return;
  }
  said.textContent = "Reading " + file.name + " ..";
  form.submit();
});
// (the browser may come back to this page)
addEventListener("pageshow", () => { form.reset(); said.textContent = "Drop a log of SAE J1939 here"; });
// (a log that misses the field does not take the page's place)
for (const what of ["dragover", "drop"]) addEventListener(what, event => { if (event.target !== log) event.preventDefault(); });
