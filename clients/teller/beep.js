// One short tone for a scan that failed: the teller's eyes are on the paper. If the browser refuses, the page stays quiet.

const HERTZ = 440;
const SECONDS = 0.15;

let context = null;
let ends = 0;

export function beep() {
  if (context !== null && context.currentTime < ends) return;
  try {
    context ??= new AudioContext();
    context.resume().catch(() => {});
    ends = context.currentTime + SECONDS;
    const tone = context.createOscillator();
    tone.frequency.value = HERTZ;
    tone.connect(context.destination);
    tone.start();
    tone.stop(ends);
  } catch {
    context = null;
  }
}
