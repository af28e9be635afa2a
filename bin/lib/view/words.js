'use strict';
// Events in words.

const REFUSALS = {
  explicit: 'it has a peering agreement',
  backoff: 'in backoff',
  score: 'its score is too low',
  full: 'the mesh is full',
  not_kept: 'not kept any more',
  too_often: 'sent too often',
};
// Why a line of the script was refused, by the refusal's number.
const REFUSED_LINES = {
  16: 'the payload was seen lately',
  17: 'the topic or the body is too long',
  18: 'it is subscribed already',
  19: 'it is not subscribed',
  21: 'it has shut down',
  33: 'the link is not open',
  34: 'it was on too many topics',
};
const FATE_WORDS = {
  new: 'new, delivered',
  duplicate: 'a duplicate',
  near: 'a duplicate, soon enough to count for NAME (P3)',
  ignored: 'ignored',
  rejected: 'rejected; counts against NAME (P4)',
  signed: 'signed or numbered, which is not allowed; counts against NAME (P4)',
  again: 'rejected before; counts against NAME (P4)',
  off_topic: 'passed over, for the peer is not subscribed',
};
const ORDINARY = ['heartbeat', 'decay', 'shut'];

function several(count, one, more) {
  return `${count} ${count === 1 ? one : more || `${one}s`}`;
}

// A moment, in seconds where it has more than four digits of milliseconds.
function moment(ms) {
  return ms < 10000 ? `${ms} ms` : `${(ms / 1000).toLocaleString('en', { maximumFractionDigits: 3 })} s`;
}

class Words {
  constructor(run) {
    this.run = run;
  }

  peer(number) {
    return this.run.peers[number] ?? `peer ${number}`;
  }

  peers(numbers) {
    const names = numbers.map((it) => this.peer(it));
    return names.length > 12 ? `${names.slice(0, 10).join(', ')} and ${names.length - 10} more` : names.join(', ');
  }

  topic(number) {
    return this.run.topics[number] || '(empty topic)';
  }

  // A message: its payload in hex, where that is short, else the first digits of its identifier.
  message(number) {
    const [id, payload, bytes] = this.run.messages[number];
    if (bytes < 0) return `${id.slice(0, 8)}..`;
    return bytes <= 8 ? payload || '(empty)' : `${payload.slice(0, 12)}.. (${several(bytes, 'byte')})`;
  }

  refusal(number) {
    return REFUSALS[this.run.words[number]] || this.run.words[number];
  }

  // What happened, and what followed from it.
  sentence(event) {
    const effects = this.byName(event[6] || []);
    const kind = this.run.kinds[event[1]];
    const [what, skipped] = this[`of_${kind}`](event, effects);
    const clauses = this.clauses(effects, new Set(skipped || []), kind);
    return clauses.length ? `${what}${what.includes(': ') ? '; ' : ': '}${clauses.join('; ')}` : what;
  }

  byName(effects) {
    const found = {};
    for (const [number, ...rest] of effects) (found[this.run.effects[number]] ||= []).push(rest);
    return found;
  }

  of_heard([, , who], effects) {
    const lost = this.unheard(effects);
    if (effects.graylisted) {
      const why = `${this.peer(who)} is below the graylist threshold`;
      return [`did not hear an RPC from ${this.peer(who)}${lost}: ${why}`, ['graylisted', 'not_heard']];
    }
    return [`heard an RPC from ${this.peer(who)}${lost}, and handled no part of it`, ['not_heard']];
  }

  of_late([, , who, , , hasEnded], effects) {
    const why = hasEnded ? 'the peer had shut down' : `${this.peer(who)} was lost before`;
    return [`did not hear an RPC from ${this.peer(who)}${this.unheard(effects)}: ${why}`, ['came_late', 'not_heard']];
  }

  unheard(effects) {
    const many = (effects.not_heard || []).map(([topic, count]) => `${several(count, 'message')} on ${this.topic(topic)}`);
    return many.length ? ` with ${many.join(', ')}` : '';
  }

  of_subscription([, , who, topic, , joins]) {
    return [`heard that ${this.peer(who)} ${joins ? 'subscribes to' : 'leaves'} ${this.topic(topic)}`];
  }

  of_message([, , who, topic, item, fate]) {
    const words = FATE_WORDS[this.run.fates[fate]].replace('NAME', this.peer(who));
    return [`heard message ${this.message(item)} on ${this.topic(topic)} from ${this.peer(who)}: ${words}`];
  }

  of_ihave([, , who, topic, , count], effects) {
    const asked = effects.asked ? `asked for ${effects.asked[0][1]} (IWANT)` : 'asked for nothing';
    const until = effects.promise ? `, due by ${moment(effects.promise[0][1])}` : '';
    const offer = `heard an offer (IHAVE) of ${several(count, 'message')} on ${this.topic(topic)} from ${this.peer(who)}`;
    return [`${offer}: ${asked}${until}`, ['asked', 'sent_iwant', 'promise']];
  }

  of_iwant([, , who, , , count], effects) {
    const sent = (effects.answered || []).length;
    const request = `heard a request (IWANT) for ${several(count, 'message')} from ${this.peer(who)}`;
    return [`${request}: sent ${sent || 'nothing'}`, ['answered', 'passed_on']];
  }

  of_graft([, , who, topic, , isMember], effects) {
    const graft = `heard a GRAFT from ${this.peer(who)} on ${this.topic(topic)}`;
    if (effects.grafted) return [`${graft}: taken into the mesh`, ['grafted']];
    if (effects.graft_refused) {
      return [`${graft}: refused, ${this.refusal(effects.graft_refused[0][2])}`, ['graft_refused']];
    }
    if (effects.sent_prune) return [`${graft}: refused`];
    return [`${graft}: ${isMember ? 'it is in the mesh already' : 'passed over, for the peer is not subscribed'}`];
  }

  of_prune([, , who, topic, , seconds], effects) {
    const barred = seconds === undefined ? '' : `, for ${seconds} s`;
    const left = effects.pruned ? `: ${this.peer(who)} leaves the mesh` : '';
    return [`heard a PRUNE from ${this.peer(who)} on ${this.topic(topic)}${barred}${left}`, ['pruned']];
  }

  of_heartbeat() { return ['heartbeat']; }

  of_heartbeat_end() { return ['heartbeat ended']; }

  of_mesh([, , , topic]) { return [`mended the mesh of ${this.topic(topic)}`]; }

  of_fanout([, , , topic]) { return [`mended the fanout of ${this.topic(topic)}`]; }

  of_gossip([, , , topic]) { return [`gossiped on ${this.topic(topic)}`]; }

  of_fanout_end([, , , topic]) { return [`ended the fanout of ${this.topic(topic)}`]; }

  of_subscribe([, , , topic]) { return [`subscribed to ${this.topic(topic)}`]; }

  of_unsubscribe([, , , topic]) { return [`left ${this.topic(topic)}`]; }

  of_publish([, , , topic, item], effects) {
    const off = effects.delivered ? '' : ', to which it is not subscribed';
    const nobody = effects.passed_on ? '' : ': sent to nobody';
    return [`published ${this.message(item)} on ${this.topic(topic)}${off}${nobody}`, ['delivered']];
  }

  of_raw([, , who, , , count]) { return [`put ${several(count, 'byte')} on the link to ${this.peer(who)}`]; }

  of_hang_up([, , who]) { return [`hung up on ${this.peer(who)}`]; }

  of_gone([, , who]) { return [`lost ${this.peer(who)}, which closed its link`]; }

  of_fault([, , who]) { return [`cut off ${this.peer(who)}: its bytes spelled no RPC`]; }

  of_decay() { return ['counters of scores decayed']; }

  of_shut() { return ['shut down']; }

  of_refused([, , what, , number, line]) {
    return [`refused line ${line} of the script, ${this.run.words[what]}: ${REFUSED_LINES[number]} (${number})`];
  }

  // What followed from an event, except what its main clause has said.
  clauses(effects, skipped, kind) {
    const found = [];
    for (const [name, items] of Object.entries(effects)) {
      if (!skipped.has(name)) found.push(...this[`clauses_of_${SORTS[name]}`](name, items, kind));
    }
    const counts = new Map();
    found.forEach((it) => counts.set(it, (counts.get(it) || 0) + 1));
    return [...counts].map(([words, count]) => (count > 1 ? `${words}, ${count} times` : words));
  }

  // A score that changed its class since it was noted last, with the parts that are below 0.
  of_scored([, , who, before, after]) {
    const { scores } = this.run;
    const [score] = scores.bodies[after];
    const was = before < 0 ? '' : `; it was ${scores.bodies[before][0]}`;
    const costs = this.costs(scores.bodies[after]);
    return [`noted a score of ${score} for ${this.peer(who)}, ${this.run.classOf(score).words}${was}${costs}`];
  }

  // The parts of a score that are below 0, the lowest one first.
  costs(body) {
    if (body.length === 1) return '';
    const parts = [...body[9].flatMap(topicParts), ...otherParts(body)].filter((it) => it.weighed < 0);
    const words = parts.sort((one, other) => one.weighed - other.weighed).map((it) => (
      `${it.code} ${it.name}${it.topic === undefined ? '' : ` on ${this.topic(it.topic)}`} (${it.counted} counted)`));
    return words.length ? `; by ${words.join(', ')}` : '';
  }

  clauses_of_members(name, items) {
    const verbs = { grafted: ['joins', 'join', 'mesh'], pruned: ['leaves', 'leave', 'mesh'],
      fanned: ['joins', 'join', 'fanout'], unfanned: ['leaves', 'leave', 'fanout'] };
    const [one, more, where] = verbs[name];
    return [`${this.peers(items.map((it) => it[0]))} ${items.length === 1 ? one : more} its ${where}`];
  }

  clauses_of_charges(name, items) {
    return items.map(([who, , value]) => (name === 'deficit'
      ? `missing deliveries count against ${this.peer(who)} (P3b): ${value}`
      : `counts against ${this.peer(who)} (P7)`));
  }

  clauses_of_backoff(name, items) {
    const until = items[items.length - 1][2];
    return [`backoff with ${this.peers(items.map((it) => it[0]))} until ${moment(until)}`];
  }

  clauses_of_sends(name, items, kind) {
    const [many, ...whom] = items[0];
    const names = this.peers(whom);
    const words = {
      passed_on: kind === 'publish' ? `sent to ${names}` : `passed on to ${names}`,
      sent_ihave: `offered messages (IHAVE) to ${names}`,
      sent_iwant: `asked ${names} for ${several(many, 'message')} (IWANT)`,
      sent_graft: `sent GRAFT to ${names}`,
      sent_prune: `sent PRUNE to ${names}`,
      announced: `announced to ${names}`,
    };
    return [words[name]];
  }

  clauses_of_rest(name, items) {
    const words = {
      delivered: () => 'delivered to its own user',
      promise: ([who, until]) => `${this.peer(who)} is to send one by ${moment(until)}`,
      broken: ([who, item, until]) => (
        `${this.peer(who)} broke its promise of message ${this.message(item)}, due by ${moment(until)}`),
      asked: ([who, count]) => `asked ${this.peer(who)} for ${several(count, 'message')}`,
      answered: ([who, item]) => `sent ${this.message(item)} to ${this.peer(who)}`,
      not_heard: ([topic, count]) => `${several(count, 'message')} on ${this.topic(topic)} not heard`,
      graylisted: ([who]) => `${this.peer(who)} is below the graylist threshold`,
      came_late: ([who]) => `${this.peer(who)} was lost before`,
      graft_refused: ([, , why]) => `refused, ${this.refusal(why)}`,
    };
    return items.map((it) => words[name](it));
  }

  clauses_of_unanswered(name, items) {
    const counts = new Map();
    items.forEach(([, , why]) => counts.set(why, (counts.get(why) || 0) + 1));
    return [...counts].map(([why, count]) => `${count} not answered, ${this.refusal(why)}`);
  }

  // Whether an event is worth a line where no peer is chosen.
  isNotable(event) {
    const kind = this.run.kinds[event[1]];
    if (ORDINARY.includes(kind)) return Boolean(event[6]);
    if (kind === 'message') return this.run.sortOf(this.run.fates[event[5]]) !== 'duplicate';
    if (kind === 'late') return !event[5];
    return kind !== 'ihave' && kind !== 'iwant' && kind !== 'gossip' && kind !== 'subscription';
  }

  // Whether an event is about what a neighbour lost by it, or about what was not done.
  isBad(event) {
    const kind = this.run.kinds[event[1]];
    if (['heard', 'fault', 'refused'].includes(kind)) return true;
    if (kind === 'late') return !event[5];
    if (kind === 'message') return this.run.sortOf(this.run.fates[event[5]]) === 'refused';
    if (kind === 'scored') return !this.isRise(event);
    const bad = ['deficit', 'misbehaviour', 'graft_refused', 'not_answered', 'broken', 'pruned'];
    return (event[6] || []).some((it) => bad.includes(this.run.effects[it[0]]));
  }

  isRise([, , , before, after]) {
    const { bodies } = this.run.scores;
    return before >= 0 && bodies[after][0] > bodies[before][0];
  }

  // Whether an event of another peer is shown for this one: it was scored, refused, lost or charged, or joined
  // or left the other's mesh.
  isAbout(event, peer) {
    const kind = this.run.kinds[event[1]];
    if (kind === 'refused') return false;
    if (event[2] === peer && (this.isBad(event) || ['scored', 'gone', 'hang_up'].includes(kind))) return true;
    return (event[6] || []).some((it) => ABOUT.includes(this.run.effects[it[0]]) && it[1] === peer);
  }
}

// What an event may say about another peer than the one that it came from.
const ABOUT = ['grafted', 'pruned', 'deficit', 'misbehaviour', 'broken'];

const SORTS = {
  grafted: 'members', pruned: 'members', fanned: 'members', unfanned: 'members',
  deficit: 'charges', misbehaviour: 'charges', backoff: 'backoff', not_answered: 'unanswered',
  passed_on: 'sends', sent_ihave: 'sends', sent_iwant: 'sends', sent_graft: 'sends', sent_prune: 'sends',
  announced: 'sends',
  delivered: 'rest', promise: 'rest', broken: 'rest', asked: 'rest', answered: 'rest', not_heard: 'rest',
  graylisted: 'rest', came_late: 'rest', graft_refused: 'rest',
};
