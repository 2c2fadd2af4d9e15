// Loads the page's modules. If one of them doesn't come, or not in time, the page loads itself again, after growing pauses: it may have an open request to send. A file that comes and
// can't be read would be the same after a reload, so the page says so and stops.

const PAUSES = [3000, 6000, 12_000, 30_000, 60_000];
/** How long a file may be on its way, in milliseconds. */
const LIMIT = 60_000;
let late = 0;

function say(id) {
  for (const name of ["starting", "unreadable", "incomplete"]) document.getElementById(name).hidden = name !== id;
}

// How often this entry of the browser's history was loaded again is kept with the entry.
function loadAgain() {
  const times = history.state?.times ?? 0;
  setTimeout(() => {
    history.replaceState({ times: times + 1 }, "");
    location.reload();
  }, PAUSES[Math.min(times, PAUSES.length - 1)]);
}

function failed(error) {
  clearTimeout(late);
  if (error instanceof SyntaxError) {
    say("unreadable");
  } else {
    say("incomplete");
    loadAgain();
  }
}

// The first module that index.html preloads. An upgrade changes its path, and removes the one of before.
const main = /** @type {HTMLLinkElement} */ (document.querySelector("link[rel=modulepreload]")).href;

function started() {
  clearTimeout(late);
  history.replaceState(null, "");
}

if (!document.documentElement.hasAttribute("data-old")) {
  late = setTimeout(() => failed(new Error("late")), LIMIT);
  import(main).then(started, failed);
}
