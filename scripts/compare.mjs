// Compares match, search and replace-all with this machine's ECMAScript engine on random patterns and lines.
//
//   node scripts/compare.mjs REPLAY [CASES [SEED]]   makes cases, runs them through the program replay and through RegExp
//   node scripts/compare.mjs --answered FILE         holds the answers that stand in a file of cases to RegExp's
//   node scripts/compare.mjs --write REPLAY CASES SEED   prints the cases with replay's answers, for storing
//
// Status: 0 nothing differs; 1 something does; 2 wrong usage, or something cannot be read, run or written, which a line on standard error tells.
//
// A pattern is made as a tree, and written both as records and as a regular expression over characters 0 to 255.
// A whole match is ^(?:...)$, a search is exec with indices. Replace-all is compared where its rule on an empty match
// behind a match and ECMA-262's agree: where no suppressed match occurs.
//
// The engine goes back over its choices, and on some patterns it would take hours for a line of twelve bytes. Each of its
// answers has a second; a case on which it takes longer is counted as unfinished and compared with nothing.
import { spawnSync } from 'node:child_process';
import { readFileSync, writeFileSync } from 'node:fs';
import vm from 'node:vm';

const PATIENCE = 1000; // milliseconds that the engine has for a case
const BATCH = 10000; // cases that replay is given at a time

// Prints a line, and throws where it cannot.
function print(line) {
    try {
        writeFileSync(1, line + '\n');
    } catch (error) {
        throw new Error('standard output cannot be written: ' + error.code);
    }
}

// A small generator of random numbers, the same for the same seed everywhere.
function randomFrom(seed) {
    let a = seed >>> 0;
    return () => {
        a = (a + 0x6d2b79f5) >>> 0;
        let t = Math.imul(a ^ (a >>> 15), 1 | a);
        t = (t + Math.imul(t ^ (t >>> 7), 61 | t)) ^ t;
        return ((t ^ (t >>> 14)) >>> 0) / 4294967296;
    };
}

const NO_END = 65535;
const two = (n) => [n & 255, n >> 8];
const record = (kind, body) => [...two(body.length), ...two(kind), ...body];

// The record of a tree.
function bytesOf(e) {
    switch (e.kind) {
        case 0: case 1: return record(e.kind, []);
        case 2: return record(2, e.ranges.flat());
        case 3: return record(3, bytesOf(e.inner));
        case 4: case 5: return record(e.kind, e.members.flatMap(bytesOf));
        default: return record(6, [...two(e.least), ...two(e.most), ...two(e.lazy ? 1 : 0), ...bytesOf(e.inner)]);
    }
}

// The tree of a record that is known to be right, and where it ends.
function treeOf(bs, at = 0) {
    const number = (i) => bs[i] + 256 * bs[i + 1];
    const kind = number(at + 2), start = at + 4, end = start + number(at);
    const inner = (from) => treeOf(bs, from).tree;
    let tree = { kind };
    if (kind === 2) {
        tree.ranges = [];
        for (let i = start; i < end; i += 2) tree.ranges.push([bs[i], bs[i + 1]]);
    } else if (kind === 3) tree.inner = inner(start);
    else if (kind === 4 || kind === 5) {
        tree.members = [];
        for (let i = start; i < end;) {
            const member = treeOf(bs, i);
            tree.members.push(member.tree);
            i = member.end;
        }
    } else if (kind === 6) {
        tree = { kind, least: number(start), most: number(start + 2), lazy: number(start + 4) === 1, inner: inner(start + 6) };
    }
    return { tree, end };
}

const escaped = (b) => '\\x' + b.toString(16).padStart(2, '0');

// The same pattern as a regular expression.
function sourceOf(e) {
    switch (e.kind) {
        case 0: return '[]';
        case 1: return '(?:)';
        case 2: return '[' + e.ranges.map(([a, b]) => escaped(a) + '-' + escaped(b)).join('') + ']';
        case 3: return '(' + sourceOf(e.inner) + ')';
        case 4: return '(?:' + e.members.map(sourceOf).join('') + ')';
        case 5: return '(?:' + e.members.map(sourceOf).join('|') + ')';
        default: return '(?:' + sourceOf(e.inner) + '){' + e.least + ',' + (e.most === NO_END ? '' : e.most) + '}' + (e.lazy ? '?' : '');
    }
}

const groupsOf = (e) => (e.kind === 3 ? 1 : 0) + [e.inner, ...(e.members ?? [])].reduce((n, m) => n + (m ? groupsOf(m) : 0), 0);

// Expanded places, as the table of records gives them.
function placesOf(e) {
    switch (e.kind) {
        case 0: case 2: return 1;
        case 1: return 0;
        case 3: return 2 + placesOf(e.inner);
        case 4: return e.members.reduce((n, m) => n + placesOf(m), 0);
        case 5: return e.members.reduce((n, m) => n + placesOf(m), e.members.length - 1);
        default: {
            const p = placesOf(e.inner);
            return e.least * (1 + p) + (e.most === NO_END ? 3 + p : (e.most - e.least) * (3 + p));
        }
    }
}

const canBeEmpty = (e) => e.kind === 1 || (e.kind === 3 && canBeEmpty(e.inner)) || (e.kind === 4 && e.members.every(canBeEmpty))
    || (e.kind === 5 && e.members.some(canBeEmpty)) || (e.kind === 6 && (e.least === 0 || canBeEmpty(e.inner)));

// Whether a repeat whose body can be empty stands inside another repeat.
function emptyInside(e, inRepeat = false) {
    if (e.kind === 6 && inRepeat && canBeEmpty(e.inner)) return true;
    return [e.inner, ...(e.members ?? [])].some((m) => m && emptyInside(m, inRepeat || e.kind === 6));
}

// A random tree.
function makeTree(random, room) {
    const pick = (n) => Math.floor(random() * n);
    const leaf = () => {
        const r = random();
        if (r < 0.02) return { kind: 0 };
        if (r < 0.12) return { kind: 1 };
        const low = 97 + pick(3);
        if (random() < 0.2) return { kind: 2, ranges: [[97, 97], [99, 99]] };
        return { kind: 2, ranges: [[low, random() < 0.3 ? 99 : low]] };
    };
    if (room <= 0) return leaf();
    const r = random();
    if (r < 0.12) return leaf();
    if (r < 0.42) return { kind: 3, inner: makeTree(random, room - 1) };
    if (r < 0.6) return { kind: 4, members: Array.from({ length: 2 + pick(2) }, () => makeTree(random, room - 1)) };
    if (r < 0.74) return { kind: 5, members: Array.from({ length: 2 + pick(2) }, () => makeTree(random, room - 1)) };
    const least = pick(3);
    const most = random() < 0.6 ? NO_END : least + pick(3);
    return { kind: 6, least, most, lazy: random() < 0.35, inner: random() < 0.3 ? makeEmptyRepeat(random, room - 1) : makeTree(random, room - 1) };
}

// A repeat whose body can be empty, for the inside of another.
function makeEmptyRepeat(random, room) {
    const inner = { kind: 5, members: random() < 0.5 ? [makeTree(random, room - 1), { kind: 1 }] : [{ kind: 1 }, makeTree(random, room - 1)] };
    const repeat = { kind: 6, least: Math.floor(random() * 2), most: NO_END, lazy: random() < 0.35, inner };
    return random() < 0.5 ? { kind: 3, inner: repeat } : repeat;
}

// A line that the tree reads, or null where the dice find none.
function sample(random, e) {
    switch (e.kind) {
        case 0: return null;
        case 1: return [];
        case 2: {
            const [low, high] = e.ranges[Math.floor(random() * e.ranges.length)];
            return [low + Math.floor(random() * (high - low + 1))];
        }
        case 3: return sample(random, e.inner);
        case 4: return e.members.reduce((all, m) => {
            const part = all && sample(random, m);
            return part && [...all, ...part];
        }, []);
        case 5: return sample(random, e.members[Math.floor(random() * e.members.length)]);
        default: {
            const extra = Math.floor(random() * (e.most === NO_END ? 3 : e.most - e.least + 1));
            let all = [];
            for (let i = 0; i < e.least + extra && all; i++) {
                const part = sample(random, e.inner);
                all = part && [...all, ...part];
            }
            return all;
        }
    }
}

function makeLine(random, e) {
    const noise = () => Array.from({ length: Math.floor(random() * 5) }, () => 97 + Math.floor(random() * 4));
    if (random() < 0.35) return noise();
    const inside = sample(random, e) ?? noise();
    const line = random() < 0.3 ? [...noise().slice(2), ...inside, ...noise().slice(2)] : inside;
    return line.slice(0, 12);
}

const hex = (bs) => bs.length === 0 ? '.' : Buffer.from(bs).toString('hex');
const unhex = (h) => h === '.' ? [] : [...Buffer.from(h, 'hex')];
const text = (bs) => String.fromCharCode(...bs);
const rowText = (span) => span ? span[0] + '-' + span[1] : '-';

// The rows that the engine gives, as a case prints them, or `none`.
function engineRows(call, e, line) {
    const source = sourceOf(e);
    const found = new RegExp(call === 'match' ? '^(?:' + source + ')$' : source, 'd').exec(text(line));
    return found ? found.indices.map(rowText).join(' ') : 'none';
}

// Literals and references, as template records.
function makeTemplate(random, groups) {
    const parts = [];
    for (let i = Math.floor(random() * 4); i > 0; i--) {
        parts.push(random() < 0.5 ? { text: [45, 60].slice(0, 1 + Math.floor(random() * 2)) } : { row: Math.floor(random() * (groups + 1)) });
    }
    return parts;
}
const templateBytes = (parts) => parts.flatMap((p) => p.text ? record(32, p.text) : record(33, two(p.row)));

// The engine's replace-all with the rule on an empty match behind a match, and whether that rule came to bear.
function engineReplace(e, parts, line) {
    let count = 0, last = -1, differs = false;
    const replaced = text(line).replace(new RegExp(sourceOf(e), 'dg'), (...args) => {
        const groups = args.slice(0, groupsOf(e) + 1);
        const at = args[groupsOf(e) + 1];
        if (groups[0] === '' && at === last) differs = true;
        if (groups[0] !== '') last = at + groups[0].length;
        count += 1;
        return parts.map((p) => p.text ? text(p.text) : groups[p.row] ?? '').join('');
    });
    return { differs, answer: hex([...Buffer.from(replaced, 'latin1')]) + ' ' + replaced.length + ' ' + count };
}

// What the engine answers within its time, or null.
const trial = vm.createContext({});
const ask = new vm.Script('work()');
function inTime(work) {
    trial.work = work;
    try {
        return ask.runInContext(trial, { timeout: PATIENCE });
    } catch (error) {
        if (error.code === 'ERR_SCRIPT_EXECUTION_TIMEOUT') return null;
        throw error;
    }
}

// Cases asked and compared; of those compared, the matches, those with an absent group, those with a repeat whose body can be empty
// inside another, and the replacements; those not compared, by the reason; and the differences.
const counts = { cases: 0, compared: 0, matched: 0, absent: 0, emptyInside: 0, replaced: 0, refused: 0, suppressed: 0, unfinished: 0, differences: 0 };

function report(line, wanted) {
    counts.differences += 1;
    if (counts.differences <= 10) print('differs: ' + line + '\n wanted: ' + wanted);
}

// Holds one answered case to the engine. Steps are the machine's own and are not compared.
function compare(line) {
    counts.cases += 1;
    const [query, answer] = line.split(' -> ');
    const [call, patternHex, second, third] = query.split(' ');
    if (answer === undefined || answer.startsWith('refused')) { counts.refused += 1; return; }
    const e = treeOf(unhex(patternHex)).tree;
    const wanted = inTime(() => call === 'replace' ? engineReplace(e, partsOf(unhex(second)), unhex(third)) : engineRows(call, e, unhex(second)));
    if (wanted === null) { counts.unfinished += 1; return; }
    if (wanted.differs) { counts.suppressed += 1; return; }
    counts.compared += 1;
    if (emptyInside(e)) counts.emptyInside += 1;
    if (call === 'replace') {
        counts.replaced += 1;
        if (!answer.startsWith(wanted.answer + ' ')) report(line, wanted.answer);
        return;
    }
    const rows = answer.startsWith('none') ? 'none' : answer.split(' ').slice(2).join(' ');
    if (rows !== wanted) report(line, wanted);
    if (rows !== 'none') {
        counts.matched += 1;
        if (rows.split(' ').includes('-')) counts.absent += 1;
    }
}

// The parts of a template that is known to be right.
function partsOf(bs) {
    const parts = [];
    for (let i = 0; i < bs.length;) {
        const body = bs.slice(i + 4, i + 4 + bs[i] + 256 * bs[i + 1]);
        parts.push(bs[i + 2] === 32 ? { text: body } : { row: body[0] });
        i += 4 + body.length;
    }
    return parts;
}

// Random cases as queries, one after the other.
function* makeCases(seed) {
    const random = randomFrom(seed);
    for (;;) {
        const e = makeTree(random, 4);
        if (groupsOf(e) > 9 || placesOf(e) + 1 > 500 || bytesOf(e).length > 4096) continue;
        for (let i = 0; i < 4; i++) {
            const line = makeLine(random, e);
            const r = random();
            const call = r < 0.55 ? 'match' : r < 0.9 ? 'search' : 'replace';
            const rest = call === 'replace' ? hex(templateBytes(makeTemplate(random, groupsOf(e)))) + ' ' + hex(line) + ' 400' : hex(line);
            yield call + ' ' + hex(bytesOf(e)) + ' ' + rest;
        }
    }
}

function runReplay(program, queries) {
    const run = spawnSync(program, { input: queries.join('\n') + '\n', maxBuffer: 1 << 30 });
    if (run.error) throw new Error(program + ' cannot be run: ' + run.error.code);
    const answered = run.stdout.toString().trimEnd().split('\n');
    if (answered.length !== queries.length) throw new Error(program + ' printed ' + answered.length + ' lines for ' + queries.length);
    return answered;
}

// Random cases in batches, each with replay's answers.
function inBatches(program, total, seed, each) {
    const cases = makeCases(seed);
    for (let done = 0; done < total;) {
        const queries = Array.from({ length: Math.min(BATCH, total - done) }, () => cases.next().value);
        runReplay(program, queries).forEach((line, i) => each(line, queries[i]));
        done += queries.length;
        console.error(done + ' of ' + total + ', differences ' + counts.differences);
    }
}

// Holds every case of a file to the engine.
function compareFile(file) {
    let lines;
    try {
        lines = readFileSync(file, 'utf8').split('\n');
    } catch (error) {
        throw new Error(file + ' cannot be read: ' + error.code);
    }
    lines.forEach((line, i) => {
        try {
            if (/^(match|search|replace) /.test(line)) compare(line);
        } catch (error) {
            throw new Error(file + ', line ' + (i + 1) + ': ' + error.message);
        }
    });
    if (counts.cases === 0) throw new Error(file + ' has no case');
}

function numberFrom(word) {
    if (!/^[0-9]+$/.test(word)) throw new Error(word + ' is no number');
    return Number(word);
}

function main(words) {
    if (words[0] === '--answered' && words.length === 2) {
        compareFile(words[1]);
    } else if (words[0] === '--write' && words.length === 4) {
        inBatches(words[1], numberFrom(words[2]), numberFrom(words[3]), (line) => print(line));
        return 0;
    } else if (words.length >= 1 && words.length <= 3 && !words[0].startsWith('--')) {
        const [program, total = '100000', seed = '1'] = words;
        const started = Date.now();
        inBatches(program, numberFrom(total), numberFrom(seed), (line, query) => line.startsWith(query + ' -> ') ? compare(line) : report(line, query));
        print('seed ' + seed + ', engine ' + process.version + ', ' + Math.round((Date.now() - started) / 1000) + ' s');
    } else {
        throw new Error('usage: node scripts/compare.mjs REPLAY [CASES [SEED]]');
    }
    print(Object.entries(counts).map(([k, n]) => k + ' ' + n).join(', '));
    return counts.differences === 0 ? 0 : 1;
}

try {
    process.exitCode = main(process.argv.slice(2));
} catch (error) {
    console.error('compare.mjs: ' + error.message.split('\n')[0]);
    process.exitCode = 2;
}
