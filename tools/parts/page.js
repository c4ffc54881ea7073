// How a call's page plays: buttons, the slider and clicks in the wave move one channel's sound, and its time moves the cursor.
"use strict";
const byId = (id) => document.getElementById(id);
const data = JSON.parse(byId("data").textContent);
const tiles = [...document.querySelectorAll(".second")];
const still = matchMedia("(prefers-reduced-motion: reduce)");
const cursor = document.createElement("div");
cursor.id = "cursor";

function player(channel) {
  const text = atob(channel.sound);
  const bytes = new Uint8Array(text.length);
  for (let k = 0; k < text.length; k++) bytes[k] = text.charCodeAt(k);
  return new Audio(URL.createObjectURL(new Blob([bytes], { type: "audio/wav" })));
}

const sounds = data.map(player);
let heard = Math.max(0, data.findIndex((channel) => channel.length > 0)); // the channel that is heard
let sound = sounds[heard];
let began = 0; // where it was last told to play from: by the time it plays a slow machine is past it

const seconds = (at) => (at >= 60 ? `${Math.floor(at / 60)}:${(at % 60).toFixed(2).padStart(5, "0")}` : `${at.toFixed(2)}\u00a0s`);
const end = () => Number(byId("at").max);
const passages = () => data[heard].passages;
const passage = (at) => (passages().find(([to]) => at < to - 1e-6) ?? passages().at(-1) ?? [0, "nothing"])[1];

function inSight(tile) {
  const box = tile.getBoundingClientRect();
  return box.bottom > 0 && box.top < innerHeight;
}

function show() {
  const at = Math.min(sound.currentTime, end());
  const k = Math.min(Math.floor(at), tiles.length - 1);
  const before = cursor.parentNode;
  const lane = tiles[k].querySelector(`.lane[data-channel="${heard}"]`);
  if (before !== lane) {
    lane.append(cursor);
    // the page follows only who looks at the cursor
    if (before && !sound.paused && inSight(before)) tiles[k].scrollIntoView({ block: "nearest" });
  }
  cursor.style.left = `${100 * (at - k)}%`;
  byId("at").value = at;
  byId("at").setAttribute("aria-valuetext", `${seconds(at)}, ${passage(at)}`);
  byId("now").textContent = `${seconds(at)} of ${seconds(end())}, ${passage(at)}`;
}

function turn() {
  show();
  if (!sound.paused && !still.matches) requestAnimationFrame(turn);
}

function go(at) {
  sound.currentTime = Math.max(0, Math.min(at, end()));
  show();
}

async function play() {
  began = sound.ended ? 0 : sound.currentTime;
  try {
    await sound.play();
  } catch (why) {
    if (why.name === "AbortError") return; // paused, or another channel chosen, before it began
    byId("said").className = "fault"; // to be seen too
    byId("said").textContent = `The browser did not play the sound: ${why.message}`;
  }
}

// Another channel is heard, from the same time on, alone.
function hear(k) {
  if (k === heard) return;
  const at = sound.currentTime;
  const playing = !sound.paused;
  sound.pause();
  heard = k;
  sound = sounds[k];
  byId("at").max = data[k].length.toFixed(2);
  for (const choice of document.querySelectorAll("input[name=channel]")) choice.checked = Number(choice.value) === k;
  go(at);
  if (playing && at < end()) play();
  else state();
}

function state() {
  byId("play").textContent = sound.paused ? "Play" : "Pause";
  byId("said").className = "hidden";
  const whose = data[heard].whose && `${data[heard].whose}: `;
  byId("said").textContent = `${whose}${sound.paused ? `Stopped at ${seconds(sound.currentTime)}` : `Playing from ${seconds(began)}`}`;
  turn();
}

byId("play").onclick = () => (sound.paused ? play() : sound.pause());
byId("back").onclick = () => go(sound.currentTime - 1);
byId("on").onclick = () => go(sound.currentTime + 1);
byId("at").oninput = () => go(Number(byId("at").value));
for (const choice of document.querySelectorAll("input[name=channel]")) choice.onchange = () => hear(Number(choice.value));
tiles.forEach((tile, k) => {
  for (const lane of tile.querySelectorAll(".lane")) {
    lane.onclick = (e) => {
      if (!data[lane.dataset.channel].length) return; // nothing was heard in it
      const box = tile.getBoundingClientRect();
      hear(Number(lane.dataset.channel));
      go(k + (e.clientX - box.left) / box.width);
      play();
    };
  }
});
for (const button of document.querySelectorAll("button[data-at]")) {
  button.onclick = () => {
    hear(Number(button.dataset.channel));
    go(Number(button.dataset.at));
    play();
  };
}
sounds.forEach((one, k) => {
  // a channel that was left stops without a word
  one.onplay = one.onpause = one.onended = () => k === heard && state();
  one.ontimeupdate = () => k === heard && show();
});
for (const link of document.querySelectorAll("a[data-save]")) link.href = sounds[link.dataset.save].src;
show();
