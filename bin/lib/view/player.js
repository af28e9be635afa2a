'use strict';
// The round and the topic that are shown: a slider, buttons, keys, and playing on by itself.

// How long each round stands while the page plays.
const PAUSE_MS = 350;
// The keys that scroll a list, where it has the focus and is longer than its place.
const SCROLL_KEYS = ['ArrowUp', 'ArrowDown', 'PageUp', 'PageDown', 'Home', 'End'];

class Player {
  constructor(run, words, state) {
    Object.assign(this, { run, state });
    this.slider = document.getElementById('slider');
    Object.assign(this.slider, { min: run.first, max: run.last, value: run.first });
    this.slider.addEventListener('input', () => state.go(+this.slider.value));
    const click = (id, act) => document.getElementById(id).addEventListener('click', act);
    click('first', () => state.go(run.first));
    click('back', () => state.go(state.round - 1));
    click('play', () => this.turn());
    click('forth', () => state.go(state.round + 1));
    click('end', () => state.go(run.last));
    this.topic = document.getElementById('topic');
    run.topics.forEach((_, number) => this.topic.add(new Option(words.topic(number), number)));
    this.topic.addEventListener('change', () => state.set({ topic: +this.topic.value, publication: null }));
    for (const key of ['mesh', 'new', 'duplicates']) {
      document.getElementById(`show-${key}`).addEventListener('change', (it) => {
        state.set({ shown: { ...state.shown, [key]: it.target.checked } });
      });
    }
    document.addEventListener('keydown', (it) => this.press(it));
    state.listen(() => this.draw());
  }

  draw() {
    const { run, state } = this;
    this.slider.value = state.round;
    const when = `round ${state.round} of ${run.last_round}, ${moment(state.round * run.round_ms)}`;
    document.getElementById('moment').textContent = when;
    this.slider.setAttribute('aria-valuetext', when);
    const play = document.getElementById('play');
    play.textContent = state.isPlaying ? 'pause' : 'play';
    play.setAttribute('aria-label', play.textContent);
  }

  // Plays, from the first round where it stands at the last; or pauses.
  turn() {
    const { run, state } = this;
    if (state.isPlaying) {
      clearInterval(this.timer);
      state.set({ isPlaying: false });
      return;
    }
    if (state.round === run.last) state.go(run.first);
    state.set({ isPlaying: true });
    this.timer = setInterval(() => {
      state.go(state.round + 1);
      if (state.round === run.last) this.turn();
    }, PAUSE_MS);
  }

  press(event) {
    const { tagName, type } = event.target;
    const isText = tagName === 'SELECT' || (tagName === 'INPUT' && type === 'search');
    if (event.ctrlKey || event.altKey || event.metaKey || document.querySelector('dialog[open]')) return;
    if (event.key === 'Escape' && !isText) this.state.choose(null);
    // (a space presses the button that has the focus)
    const isButton = tagName === 'BUTTON' || type === 'checkbox' || type === 'radio';
    if (isText || (event.key === ' ' && isButton) || this.scrolls(event)) return;
    const act = this.acts()[event.key];
    if (act) {
      event.preventDefault();
      act();
    }
  }

  // Whether a key scrolls the list that has the focus.
  scrolls({ key, target }) {
    const list = target.closest('#events, #neighbours, #parts');
    return SCROLL_KEYS.includes(key) && list !== null && list.scrollHeight > list.clientHeight;
  }

  acts() {
    const { run, state } = this;
    return {
      ArrowLeft: () => state.go(state.round - 1),
      ArrowRight: () => state.go(state.round + 1),
      PageUp: () => state.go(state.round - 10),
      PageDown: () => state.go(state.round + 10),
      Home: () => state.go(run.first),
      End: () => state.go(run.last),
      ArrowUp: () => this.chooseNext(-1),
      ArrowDown: () => this.chooseNext(1),
      ' ': () => this.turn(),
      '?': () => document.getElementById('help').click(),
    };
  }

  chooseNext(step) {
    const { run, state } = this;
    if (state.peer === null) state.choose(step > 0 ? 0 : run.count - 1);
    else state.choose((state.peer + step + run.count) % run.count);
  }
}
