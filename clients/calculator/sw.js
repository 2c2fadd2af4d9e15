// Keeps the page's files in the browser, so that it opens without a network. The build writes their names, and a name of the version.

const CACHE = "savings-bond-calculator-VERSION";
const FILES = [];

self.addEventListener("install", (event) => {
  const fresh = FILES.map((file) => new Request(file, { cache: "reload" }));
  event.waitUntil(caches.open(CACHE).then((cache) => cache.addAll(fresh)).then(() => self.skipWaiting()));
});

async function forgetOlder() {
  const names = await caches.keys();
  const older = names.filter((name) => name.startsWith("savings-bond-calculator-") && name !== CACHE);
  await Promise.all(older.map((name) => caches.delete(name)));
  await self.clients.claim();
}

self.addEventListener("activate", (event) => event.waitUntil(forgetOlder()));

async function answer(request) {
  const cache = await caches.open(CACHE);
  return (await cache.match(request, { ignoreSearch: true })) ?? fetch(request);
}

self.addEventListener("fetch", (event) => {
  const is_own = new URL(event.request.url).origin === self.location.origin;
  if (event.request.method === "GET" && is_own) event.respondWith(answer(event.request));
});
