'use strict';
// What the page knows of the run, and what can be asked of it. Rounds are whole numbers, moments are in milliseconds, and
// peers, topics and messages are numbers: places in their lists.

// The classes of scores, from the best, with the marks and the words that the page has for them.
const CLASSES = [
  { name: 'fair', mark: '+', short: '≥ 0', words: '0 or more' },
  { name: 'zero', mark: '−', short: '< 0', words: 'below 0' },
  { name: 'gossip', mark: 'g', short: '< gossip', words: 'below the gossip threshold' },
  { name: 'publish', mark: 'p', short: '< publish', words: 'below the publish threshold' },
  { name: 'graylist', mark: 'x', short: '< graylist', words: 'below the graylist threshold' },
  { name: 'unscored', mark: '?', short: 'no score yet', words: 'not known: no neighbour has scored it' },
];
// When scores are noted: the words for it, and the events of a peer.
const SCORE_EVENTS = ['heartbeat', 'decay', 'end of the run'];
const SCORE_KINDS = ['heartbeat', 'decay', 'shut'];
const TOPIC_PARTS = [
  ['P1', 'time in mesh'],
  ['P2', 'first message deliveries'],
  ['P3', 'mesh message deliveries'],
  ['P3b', 'mesh failure penalty'],
  ['P4', 'invalid message deliveries'],
];
const OTHER_PARTS = [
  ['P5', 'application-specific score'],
  ['P6', 'IP colocation factor'],
  ['P7', 'behaviour penalty'],
];

async function unpacked(text) {
  const bytes = Uint8Array.from(atob(text), (it) => it.charCodeAt(0));
  const stream = new Blob([bytes]).stream().pipeThrough(new DecompressionStream('gzip'));
  return JSON.parse(await new Response(stream).text());
}

// Whether something holds at the end of a round: its last two numbers are the first such round, and the first without it.
function holdsAt(span, round) {
  return span[span.length - 2] <= round && round < span[span.length - 1];
}

// The parts of a score that a topic has: of each what is counted, and what that weighs.
function topicParts([topic, , ...values]) {
  return TOPIC_PARTS.map(([code, name], number) => (
    { code, name, topic, counted: values[2 * number], weighed: values[2 * number + 1] }));
}

// The parts of a score that are of no topic.
function otherParts([, , , ownCount, own, addresses, colocation, faults, behaviour]) {
  const values = [[ownCount, own], [addresses, colocation], [faults, behaviour]];
  return OTHER_PARTS.map(([code, name], number) => (
    { code, name, counted: values[number][0], weighed: values[number][1] }));
}

class RunData {
  constructor(data) {
    Object.assign(this, data);
    this.kinds.push('scored');
    this.count = this.peers.length;
    this.roundCount = this.last - this.first + 1;
    this.kindNumber = Object.fromEntries(this.kinds.map((it, number) => [it, number]));
    this.effectNumber = Object.fromEntries(this.effects.map((it, number) => [it, number]));
    this.neighbours = this.peers.map(() => []);
    for (const [one, other] of this.dials) {
      this.neighbours[one].push(other);
      this.neighbours[other].push(one);
    }
    this.neighbours.forEach((it) => it.sort((one, other) => one - other));
    this.sizes = new Map();
    this.setScores();
    this.setTurns();
    this.setPublications();
  }

  // The courses of scores by who gives them and who has them, and the lowest score of each peer, round by round.
  setScores() {
    this.courses = new Map();
    this.lowest = this.peers.map(() => new Float64Array(this.roundCount).fill(Infinity));
    for (const [peer, other, course] of this.scores ? this.scores.pairs : []) {
      this.courses.set(peer * this.count + other, course);
      const row = this.lowest[other];
      for (let place = 0; place < course.length; place += 3) {
        const end = place + 3 < course.length ? course[place + 3] : this.last + 1;
        const value = this.scores.bodies[course[place + 2]][0];
        for (let round = Math.max(course[place], this.first); round < Math.min(end, this.last + 1); round++) {
          row[round - this.first] = Math.min(row[round - this.first], value);
        }
      }
    }
  }

  // Adds an event for each score that changed its class: [peer, kind, neighbour, the score before, the new one].
  setTurns() {
    for (const [peer, other, course] of this.scores ? this.scores.pairs : []) {
      for (let place = 0; place < course.length; place += 3) {
        const [round, moment, after] = course.slice(place, place + 3);
        const before = place ? course[place - 1] : -1;
        const isShown = round >= this.first && round <= this.last
          && (this.only === null || [peer, other].includes(this.only));
        if (isShown && this.classOfBody(before) !== this.classOfBody(after)) {
          this.addTurn(round, SCORE_KINDS[moment], [peer, this.kindNumber.scored, other, before, after]);
        }
      }
    }
  }

  // (who has no score yet is as one that has 0)
  classOfBody(number) {
    return this.classOf(number < 0 ? 0 : this.scores.bodies[number][0]);
  }

  // A turn stands after the event at which it was noted.
  addTurn(round, kind, turn) {
    const events = this.eventsOf(round);
    let place = 1 + events.findIndex((it) => it[0] === turn[0] && this.kinds[it[1]] === kind);
    if (!place) place = events.length;
    while (place < events.length && this.kinds[events[place][1]] === 'scored') place++;
    events.splice(place, 0, turn);
  }

  // Each message: who published it, who could get it, and in which round each peer had it.
  setPublications() {
    this.hasPublications = this.publications !== null;
    this.publications = (this.publications || []).map(([topic, item, round, verdict, publishers, subscribers, had]) => (
      { topic, item, round, verdict, publishers, subscribers, had: new Map(had) }));
  }

  // Of those who could get a message, the peers that had it at the end of a round, and the others.
  reachOf(publication, round) {
    const came = [];
    const lacking = [];
    for (const peer of publication.subscribers) {
      (publication.had.get(peer) <= round ? came : lacking).push(peer);
    }
    return { came, lacking };
  }

  eventsOf(round) {
    return this.events[round - this.first];
  }

  figuresOf(round) {
    const figures = this.figures[round - this.first];
    return Object.fromEntries(this.figure_names.map((name, place) => [name, figures[place]]));
  }

  // The links of a topic's mesh at the end of a round: from the peer whose mesh it is, to the member; `both` where each has
  // the other.
  linksOf(topic, round) {
    const found = new Set();
    for (const it of this.meshes) {
      if (it[2] === topic && holdsAt(it, round)) found.add(it[0] * this.count + it[1]);
    }
    const links = [];
    for (const key of found) {
      const from = Math.floor(key / this.count);
      const to = key % this.count;
      const both = found.has(to * this.count + from);
      if (!both || from < to) links.push({ from, to, both });
    }
    return links;
  }

  subscribersOf(topic, round) {
    return new Set(this.subscribed.filter((it) => it[1] === topic && holdsAt(it, round)).map((it) => it[0]));
  }

  // Whether a peer had lost a neighbour by the end of a round.
  hasLost(peer, other, round) {
    return this.lost.some((it) => it[0] === peer && it[1] === other && holdsAt(it, round));
  }

  // How many members the meshes of a topic have at the end of each round: a row for each peer, with -1 where it is not
  // subscribed.
  sizesOf(topic) {
    if (!this.sizes.has(topic)) {
      const rows = this.peers.map(() => new Int16Array(this.roundCount).fill(-1));
      const each = (span, change) => {
        const end = Math.min(span[span.length - 1], this.last + 1);
        for (let round = Math.max(span[span.length - 2], this.first); round < end; round++) change(round - this.first);
      };
      const joined = this.subscribed.filter((it) => it[1] === topic);
      joined.forEach((it) => each(it, (place) => { rows[it[0]][place] = 0; }));
      this.meshes.filter((it) => it[2] === topic).forEach((it) => each(it, (place) => {
        if (rows[it[0]][place] >= 0) rows[it[0]][place]++;
      }));
      this.sizes.set(topic, rows);
    }
    return this.sizes.get(topic);
  }

  // The messages of a topic that came in a round, counted by sender and receiver; of a publication, only that message. Of
  // an RPC that was not heard it is not known which messages it had.
  wayOf(topic, round, publication) {
    const found = new Map();
    const add = (from, to, what, count) => {
      const key = from * this.count + to;
      if (!found.has(key)) found.set(key, { from, to, fresh: 0, duplicate: 0, refused: 0, unheard: 0 });
      found.get(key)[what] += count;
    };
    for (const it of this.eventsOf(round)) {
      const kind = this.kinds[it[1]];
      const isShown = it[3] === topic && (!publication || it[4] === publication.item);
      if (kind === 'message' && isShown) add(it[2], it[0], this.sortOf(this.fates[it[5]]), 1);
      if (kind === 'heard' || kind === 'late') {
        for (const effect of it[6] || []) {
          if (this.effects[effect[0]] === 'not_heard' && effect[1] === topic) add(it[2], it[0], 'unheard', effect[2]);
        }
      }
    }
    return [...found.values()];
  }

  sortOf(fate) {
    if (fate === 'new') return 'fresh';
    return ['duplicate', 'near', 'off_topic'].includes(fate) ? 'duplicate' : 'refused';
  }

  // The score that a peer gives another at the end of a round: the moment of the last change, and the score with its parts.
  scoreOf(peer, other, round) {
    const course = this.courses.get(peer * this.count + other);
    if (!course || course[0] > round) return null;
    let place = 0;
    while (place + 3 < course.length && course[place + 3] <= round) place += 3;
    return { round: course[place], event: SCORE_EVENTS[course[place + 1]], body: this.scores.bodies[course[place + 2]] };
  }

  // The scores that a peer gives another, round by round; null where there is none.
  valuesOf(peer, other) {
    return d3.range(this.first, this.last + 1).map((round) => this.scoreOf(peer, other, round)?.body[0] ?? null);
  }

  // The lowest score that a neighbour gives a peer at the end of a round, and which neighbour.
  lowestOf(peer, round) {
    let found = null;
    for (const other of this.neighbours[peer]) {
      const it = this.scoreOf(other, peer, round);
      if (it && (!found || it.body[0] < found.score)) found = { score: it.body[0], by: other };
    }
    return found;
  }

  classOf(score) {
    if (score === null || score === Infinity) return CLASSES[5];
    const [gossip, publish, graylist] = this.scores.thresholds;
    if (score < graylist) return CLASSES[4];
    if (score < publish) return CLASSES[3];
    if (score < gossip) return CLASSES[2];
    return score < 0 ? CLASSES[1] : CLASSES[0];
  }

  classAt(peer, round) {
    return this.classOf(this.lowest[peer][round - this.first]);
  }
}
