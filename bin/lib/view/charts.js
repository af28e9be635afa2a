'use strict';
// Lines over rounds, with a cursor at the round that is shown: lowest scores, sizes of meshes, deliveries.

const CHART = { width: 410, height: 148, left: 44, right: 14, top: 8, bottom: 20 };
// How wide the words beside a chart are, and how high a line of them.
const BESIDE = { width: 78, height: 11 };
// Scores are drawn by their size's logarithm, above this one.
const LEVEL = 1;
// How near to a line a click has to be, in the units of the picture.
const NEAR = 10;

function bent(value) {
  return Math.sign(value) * Math.log1p(Math.abs(value) / LEVEL);
}

// A number in few characters.
function short(value) {
  const size = Math.abs(value);
  if (size >= 1e6) return `${+(value / 1e6).toFixed(1)}M`;
  if (size >= 1e4) return `${+(value / 1e3).toFixed(1)}k`;
  return `${+value.toFixed(2)}`;
}

class Chart {
  constructor(place, run, state, right = CHART.right) {
    Object.assign(this, { run, state });
    this.svg = d3.select(place).attr('viewBox', `0 0 ${CHART.width} ${CHART.height}`);
    this.right = CHART.width - right;
    this.x = d3.scale.linear().domain([run.first, Math.max(run.last, run.first + 1)]).range([CHART.left, this.right]);
    this.grid = this.svg.append('g').attr('class', 'grid');
    this.body = this.svg.append('g');
    this.cursor = this.svg.append('line').attr('class', 'cursor').attr('y1', CHART.top)
      .attr('y2', CHART.height - CHART.bottom);
    const below = d3.svg.axis().scale(this.x).orient('bottom').ticks(Math.min(8, Math.max(run.roundCount - 1, 1)))
      .tickFormat(d3.format('d')).tickSize(3);
    this.svg.append('g').attr('class', 'axis').attr('transform', `translate(0,${CHART.height - CHART.bottom})`).call(below)
      .append('text').attr('x', CHART.left - 16).attr('y', 6).attr('dy', '0.71em').attr('text-anchor', 'end').text('round');
    const drag = () => this.moved();
    this.svg.on('click', () => this.clicked()).on('mousemove', () => { if (d3.event.buttons === 1) drag(); });
  }

  roundAt(x) {
    return Math.round(this.x.invert(x));
  }

  clicked() {
    const [x, y] = d3.mouse(this.svg.node());
    this.state.go(this.roundAt(x));
    this.hit(this.state.round, y);
  }

  moved() {
    this.state.go(this.roundAt(d3.mouse(this.svg.node())[0]));
  }

  // What a click does besides going to a round.
  hit() {}

  setScale(low, high, ticks) {
    this.y = d3.scale.linear().domain([low, high]).range([CHART.height - CHART.bottom, CHART.top]);
    this.level(ticks);
  }

  // A scale of whole numbers from 0.
  setCounts(highest) {
    const ticks = d3.scale.linear().domain([0, highest]).ticks(4).filter(Number.isInteger);
    this.setScale(0, highest * 1.05, ticks.map((it) => [it, short(it)]));
  }

  // The levels of the chart, as [value, text, name].
  level(ticks) {
    const levels = this.grid.selectAll('g').data(ticks);
    const fresh = levels.enter().append('g');
    fresh.append('line').attr('x1', CHART.left).attr('x2', this.right);
    fresh.append('text').attr('dy', '0.32em');
    levels.exit().remove();
    levels.attr('class', (it) => it[2] || '').attr('transform', (it) => `translate(0,${this.y(it[0]).toFixed(1)})`);
    const side = (it) => (it[2] ? this.right + 3 : CHART.left - 6);
    const lifts = this.lifts(ticks.filter((it) => it[2]));
    levels.select('text').text((it) => it[1]).attr('x', side).attr('y', (it) => -(lifts.get(it) || 0))
      .attr('text-anchor', (it) => (it[2] ? 'start' : 'end'));
  }

  // By how much the words of levels are lifted, so that none lies on another one.
  lifts(levels) {
    const found = new Map();
    let below = Infinity;
    for (const it of [...levels].sort((one, other) => one[0] - other[0])) {
      const level = this.y(it[0]);
      const place = Math.min(level, below - BESIDE.height);
      found.set(it, level - place);
      below = place;
    }
    return found;
  }

  // The path of values, one for each round, as steps; it leaves out what is not there.
  steps(values) {
    let path = '';
    let before = null;
    for (let place = 0; place < values.length; place++) {
      const value = values[place];
      if (value === null) {
        before = null;
      } else if (before === null) {
        path += `M${this.x(this.run.first + place).toFixed(1)},${this.y(value).toFixed(1)}h0.1`;
        before = value;
      } else {
        path += `H${this.x(this.run.first + place).toFixed(1)}`;
        if (value !== before) path += `V${this.y(value).toFixed(1)}`;
        before = value;
      }
    }
    return path;
  }

  point() {
    const x = this.x(this.state.round);
    this.cursor.attr('x1', x).attr('x2', x);
  }
}

class ScoreChart extends Chart {
  constructor(run, words, state) {
    super('#score-chart', run, state, BESIDE.width);
    this.words = words;
    this.svg.append('text').attr('x', this.right + 16).attr('y', CHART.height - CHART.bottom + 6).attr('dy', '0.71em')
      .text('log scale');
    this.rows = run.lowest.map((row) => Array.from(row, (it) => (it === Infinity ? null : bent(it))));
    this.scale();
    this.lines = this.body.selectAll('path').data(this.rows).enter().append('path').attr('class', 'line');
    this.lines.attr('d', (row) => this.steps(row)).append('title').text((_, number) => run.peers[number]);
    this.pair = this.body.append('path').attr('class', 'line pair');
    state.listen((_, changed) => {
      if (['peer', 'other', 'gives'].some((key) => changed.has(key))) this.drawPair();
      if (['round', 'peer', 'other', 'gives'].some((key) => changed.has(key))) this.draw();
    });
  }

  scale() {
    const values = this.rows.flat().filter((it) => it !== null);
    const thresholds = this.run.scores ? this.run.scores.thresholds : [];
    const lowest = Math.min(0, ...values);
    const shown = thresholds.filter((it, number) => number === 0 || bent(thresholds[number - 1]) >= lowest);
    const low = Math.min(lowest, ...shown.map(bent));
    const high = Math.max(bent(1), ...values);
    const round = [-1e6, -1e5, -1e4, -1000, -100, -10, -1, 0, 1, 10, 100, 1000, 1e4, 1e5];
    const ticks = round.map((it) => [bent(it), short(it)]).filter(([it]) => it >= low - 0.01 && it <= high + 0.01);
    const names = ['gossip', 'publish', 'graylist'];
    const level = shown.map((it, number) => [bent(it), `${names[number]} ${short(it)}`, 'threshold']);
    const gap = (high - low) * 0.05;
    this.setScale(low - gap, high + gap, [...apart(ticks, (high - low) * 0.09), ...level]);
    this.y.clamp(true);
  }

  // Who gives the score that is looked at, and who has it.
  looked() {
    const { peer, other, gives } = this.state;
    if (peer === null || other === null) return null;
    return gives ? [peer, other] : [other, peer];
  }

  // The course of the score that is looked at.
  drawPair() {
    const pair = this.looked();
    const values = pair && this.run.valuesOf(...pair).map((it) => (it === null ? null : bent(it)));
    this.pair.attr('d', values ? this.steps(values) : '');
  }

  draw() {
    const { run, state } = this;
    this.point();
    this.lines.attr('class', (_, number) => {
      const name = run.classAt(number, state.round).name;
      if (state.peer === null) return `line ${name}`;
      return `line ${name} ${state.peer === number && state.other === null ? 'chosen' : 'pale'}`;
    });
    d3.select('#score-words').text(this.told());
  }

  told() {
    const { run, words, state } = this;
    if (!run.scores) return 'scores: no program of this tree gives them';
    if (!Number.isFinite(d3.min(run.lowest, (row) => d3.min(row)))) return 'scores: there is none in these rounds';
    const pair = this.looked();
    if (pair) {
      const it = run.scoreOf(...pair, state.round);
      return `score that ${words.peer(pair[0])} gives ${words.peer(pair[1])}: ${it ? it.body[0] : 'none yet'}`;
    }
    if (state.peer !== null) {
      const it = run.lowestOf(state.peer, state.round);
      return `lowest score of ${words.peer(state.peer)}: ${it ? `${it.score}, by ${words.peer(it.by)}` : 'none yet'}`;
    }
    let worst = null;
    run.peers.forEach((_, peer) => {
      const value = run.lowest[peer][state.round - run.first];
      if (value !== Infinity && (worst === null || value < worst.value)) worst = { peer, value };
    });
    return `lowest score of each peer: ${worst ? `down to ${worst.value}, of ${words.peer(worst.peer)}` : 'none yet'}`;
  }

  // A click near a line looks at the lowest score of its peer.
  hit(round, y) {
    const place = round - this.run.first;
    let best = null;
    this.rows.forEach((row, peer) => {
      if (row[place] === null) return;
      const away = Math.abs(this.y(row[place]) - y);
      if (away <= NEAR && (best === null || away < best.away)) best = { peer, away };
    });
    const lowest = best && this.run.lowestOf(best.peer, round);
    if (lowest) this.state.look(best.peer, lowest.by, false);
  }
}

// Those of some levels that are so far apart that their texts can be read.
function apart(levels, gap) {
  const isNear = (one, other) => Math.abs(other[0] - one[0]) < gap && Math.abs(other[0]) < Math.abs(one[0]);
  return levels.filter((it) => !levels.some((other) => isNear(it, other)));
}

class MeshChart extends Chart {
  constructor(run, words, state) {
    super('#mesh-chart', run, state);
    this.words = words;
    const sizes = run.topics.flatMap((_, topic) => run.sizesOf(topic).map((row) => d3.max(row)));
    this.setCounts(Math.max(1, ...sizes));
    this.area = this.body.append('path').attr('class', 'area');
    this.own = this.body.append('path').attr('class', 'line chosen');
    this.middle = this.body.append('path').attr('class', 'line middle');
    state.listen((_, changed) => {
      if (changed.has('topic') || changed.has('peer')) this.drawLines();
      if (['topic', 'peer', 'round'].some((key) => changed.has(key))) this.draw();
    });
  }

  // The smallest mesh, the median and the largest one of each round.
  drawLines() {
    const { run, state } = this;
    const rows = run.sizesOf(state.topic);
    this.spread = Array.from({ length: run.roundCount }, (_, place) => {
      const sizes = rows.map((row) => row[place]).filter((it) => it >= 0).sort((one, other) => one - other);
      return sizes.length ? [sizes[0], sizes[Math.floor((sizes.length - 1) / 2)], sizes[sizes.length - 1]] : null;
    });
    const of = (which) => this.spread.map((it) => it && it[which]);
    this.area.attr('d', this.band(this.spread));
    this.middle.attr('d', this.steps(of(1)));
    const own = state.peer === null ? [] : Array.from(rows[state.peer], (it) => (it < 0 ? null : it));
    this.own.attr('d', this.steps(own));
  }

  band(spread) {
    const x = (place) => this.x(this.run.first + place).toFixed(1);
    const y = (value) => this.y(value).toFixed(1);
    const next = (place) => x(Math.min(place + 1, spread.length - 1));
    const box = ([low, , high], place) => `M${x(place)},${y(low)}V${y(high)}H${next(place)}V${y(low)}z`;
    return spread.map((it, place) => (it ? box(it, place) : '')).join('');
  }

  draw() {
    const { run, words, state } = this;
    this.point();
    const it = this.spread[state.round - run.first];
    const own = state.peer === null ? -1 : run.sizesOf(state.topic)[state.peer][state.round - run.first];
    const caption = d3.select('#mesh-words').text(`members of meshes of ${words.topic(state.topic)}:${it ? '' : ' none'}`);
    const add = (kind, told) => {
      const key = caption.append('span').attr('class', 'key');
      key.append('i').attr('class', `swatch ${kind}`);
      key.append('span').text(told);
    };
    if (it) add('spread', `${it[0]} to ${it[2]}`);
    if (it) add('middle', `median ${it[1]}`);
    if (state.peer !== null) add('own', `${words.peer(state.peer)}: ${own < 0 ? 'not subscribed' : own}`);
  }
}

class DeliveryChart extends Chart {
  constructor(run, words, state) {
    super('#delivery-chart', run, state);
    const values = run.figures.map((it) => it[0]);
    const highest = Math.max(1, ...values);
    this.setCounts(highest);
    const width = Math.max(1, Math.min(8, (this.x(1) - this.x(0)) * 0.8));
    this.body.selectAll('rect').data(values).enter().append('rect').attr('class', 'bar')
      .attr('x', (_, place) => this.x(run.first + place) - width / 2).attr('width', width)
      .attr('y', (it) => this.y(it)).attr('height', (it) => Math.max(0, this.y(0) - this.y(it)));
    state.listen((_, changed) => {
      if (changed.has('round')) this.draw();
    });
  }

  draw() {
    this.point();
    d3.select('#delivery-words').text(`deliveries of each round: ${this.run.figuresOf(this.state.round).delivered}`);
  }
}
