/* Says so in a browser that lacks what the page needs. It is no module, and is written so that old browsers can read it. */
(function () {
  "use strict";
  var has_modules = "noModule" in document.createElement("script");
  var has_storage = "indexedDB" in window && "locks" in navigator && "BroadcastChannel" in window;
  var has_rest = "AbortSignal" in window && "any" in AbortSignal && "HTMLDialogElement" in window && "ResizeObserver" in window;
  if (has_modules && has_rest && (has_storage || !window.isSecureContext)) return;
  document.documentElement.setAttribute("data-old", "");
  document.getElementById("starting").hidden = true;
  document.getElementById("too-old").hidden = false;
})();
