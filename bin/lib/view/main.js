'use strict';
// Begins: reads what the page knows of the run, and draws it.

// Light or dark, as the reader's screen is, until the button is pressed.
function setTheme() {
  const root = document.documentElement;
  const button = document.getElementById('theme');
  const scheme = matchMedia('(prefers-color-scheme: dark)');
  const set = (isDark) => {
    root.dataset.theme = isDark ? 'dark' : 'light';
    button.textContent = isDark ? 'light' : 'dark';
  };
  button.addEventListener('click', () => set(root.dataset.theme !== 'dark'));
  scheme.addEventListener('change', () => set(scheme.matches));
  set(scheme.matches);
}

function setHelp() {
  const about = document.getElementById('about');
  document.getElementById('help').addEventListener('click', () => about.showModal());
  document.getElementById('close').addEventListener('click', () => about.close());
}

function say(problem) {
  const place = document.getElementById('problem');
  place.textContent = problem;
  place.hidden = false;
}

async function begin() {
  setTheme();
  setHelp();
  if (!window.DecompressionStream) {
    say('This browser is too old for this page: it can’t unpack the run (DecompressionStream).');
    return;
  }
  const run = new RunData(await unpacked(document.getElementById('run').textContent));
  document.getElementById('unproved').hidden = !run.unproved;
  const words = new Words(run);
  const state = new State(run);
  const parts = [Network, MessageChoice, FiguresPanel, EventList, ScorePanel, ScoreChart, MeshChart, DeliveryChart, Player];
  parts.forEach((Part) => new Part(run, words, state));
  state.tell();
  document.documentElement.dataset.ready = 'yes';
}

begin();
