// The desk page: it puts forms, lists and statements before the doors. It decides nothing and keeps
// no books: what it shows as a number a door said, and what it sends the program judges.

import {byId, fill} from './dom.js';
import {Calls} from './calls.js';
import {Chart, local, today} from './chart.js';
import {Doors} from './doors.js';
import {got, Lists} from './lists.js';
import {Words} from './words.js';
import {Enter} from './enter.js';
import {Lines} from './lines.js';
import {Open, States} from './open.js';
import {Papers} from './papers.js';
import {Entry, Find} from './find.js';
import {Ledger} from './ledger.js';
import {Month} from './month.js';
import {Statements} from './statements.js';
import {Council} from './council.js';
import {Sent} from './sent.js';
import {Vendors} from './vendors.js';
import {Views} from './views.js';

// How often the lists are asked for again, and from when on they are behind, in milliseconds. Where
// they haven't changed the proxy says so alone.
const RENEWED = 60 * 1000, BEHIND = 3 * 60 * 1000;

async function begin() {
    const [tables, rows, me] = await Promise.all([got('tables.json'), got('data/chart.json'), got('/whoami')]);
    const chart = new Chart(rows), doors = new Doors(me), vendors = new Vendors(), lists = new Lists(doors, chart, vendors);
    await lists.load().catch(fault => say(byId('fault'), `The lists aren’t there (${fault.message}): numbers have to be typed.`));
    const words = new Words(tables, chart, lists), states = new States(chart), desk = chart.find('desk', me.desk), roles = desk ? desk.roles : [];
    const city = {tables, chart, me, doors, lists, vendors, words, states, roles};
    city.calls = new Calls(city);
    city.papers = new Papers(city);
    byId('city').textContent = chart.city;
    byId('who').textContent = me.user + (desk ? `, desk ${desk.id} ${desk.name} (${roles.join(', ')})` : ', without a desk: may only look');
    const enter = new Enter(city);
    city.begin = (call, values) => { enter.begin(call, values); views.go('enter'); byId('call').focus(); };
    let year = years(chart, lists);
    const sent = new Sent(city), views = new Views(chart, roles,
        {enter, lines: new Lines(city), open: new Open(city), find: new Find(city), entry: new Entry(city), ledger: new Ledger(city), month: new Month(city),
            statements: new Statements(city), council: new Council(city), sent, paper: city.papers});
    enter.chose = () => views.tell();
    menu();
    doors.addEventListener('changed', event => changed(event.detail, city, enter, sent));
    enter.offer(roles);
    views.begin();
    doors.sendAll();
    const age = new Age(doors, lists);
    age.say();
    // Where the night over an open page has ended a fiscal year, its views open at the new one.
    const wake = () => {
        if (yearNow(chart) === year) return;
        year = years(chart, lists, year);
        views.year = String(year);
        views.follow();
    };
    const renew = () => lists.load().then(() => enter.renew(), () => {}).then(() => { age.say(); wake(); });
    setInterval(renew, RENEWED);
    addEventListener('focus', renew);
    document.body.dataset.ready = 'yes';
}

/** On a phone a button shows and hides the choice of views. */
function menu() {
    const button = byId('menu'), shown = byId('views').classList;
    const show = isShown => { shown.toggle('shown', isShown); button.setAttribute('aria-expanded', String(shown.contains('shown'))); };
    button.addEventListener('click', () => show());
    byId('views').addEventListener('click', () => {
        // The keyboard goes on in the view that was chosen.
        if (shown.contains('shown')) byId('main').focus({preventScroll: true});
        show(false);
    });
    addEventListener('keydown', event => { if (event.key === 'Escape' && shown.contains('shown')) { show(false); button.focus(); } });
}

const yearNow = chart => Math.max(chart.yearOf(today()), chart.first_year);

/**
 * The fiscal years that can be asked for; today's is shown first, whatever year the last entry is
 * of, and in place of the one that was today's. It gives today's.
 */
function years(chart, lists, was) {
    const now = yearNow(chart), last = Math.max(now, ...lists.state.files.entries) + 1;
    const shown = Array.from({length: last + 1 - chart.first_year}, (_, place) => [last - place, String(last - place)]);
    for (const id of ['lines-year', 'ledger-year', 'report-year', 'council-year']) {
        const chosen = byId(id).value;
        fill(byId(id), shown);
        if (was === undefined || chosen === String(was)) byId(id).value = String(now);
    }
    return now;
}

/**
 * Says where answers are ahead of the lists for minutes, and what of the entries the lists don't
 * follow.
 */
class Age {
    constructor(doors, lists) {
        Object.assign(this, {doors, lists, since: undefined});
    }

    say() {
        const {state, vendors} = this.lists, {seen} = this.doors;
        // The lists were ahead of what is seen now at some time since: then they are on the way.
        if (seen <= (state.entries || 0)) this.since = undefined;
        else if (this.since === undefined || state.entries !== this.at) [this.since, this.at] = [Date.now(), state.entries];
        const isBehind = this.since !== undefined && Date.now() - this.since >= BEHIND;
        const made = state.made ? `, made at ${local(state.made)}` : '';
        say(byId('behind'), isBehind ? `The lists are behind: they have the entries up to ${state.entries || 0}${made}, and the books have ${seen}. ` +
            'What is open and the documents of lines may be missing here. Tell whoever runs the page.' : '');
        const skips = (state.skipped || []).slice(0, 3).map(each => `${each.what} (${each.key}), at ${local(each.time)}`);
        const skipped = state.skips ? `The lists couldn’t read ${skips.join('; ')}${state.skips > skips.length ? `, and ${state.skips - skips.length} more` : ''}. ` : '';
        say(byId('skipped'), skipped + (vendors.fault ? `The list of vendors has a fault: ${vendors.fault}. The names that were read before stay.` : ''));
    }
}

function say(node, text) {
    if (node.textContent !== text) node.textContent = text;
    node.hidden = !text;
}

/** What happened to a call: it waits, it failed to come through, or it is answered. */
function changed({call, reply, fault, pause}, {doors}, enter, sent) {
    const waiting = doors.waiting();
    if (fault) {
        const why = fault.status ? fault.message : 'the proxy can’t be reached', seconds = `${pause} second${pause === 1 ? '' : 's'}`;
        say(byId('waiting'), `Not answered yet: ${call.key} (${why}). It is sent again in ${seconds}; it can be taken once only.` +
            (waiting.length > 1 ? ` ${waiting.length - 1} more wait behind it.` : ''));
    } else {
        const first = waiting[0];
        say(byId('waiting'), first ? `Not answered yet: ${first.key}. It is sent until it is answered; it can be taken once only.` : '');
    }
    if (reply) enter.answered(call, reply);
    if (!byId('sent').hidden) sent.show();
}

begin().catch(fault => say(byId('fault'), `The page can’t begin: ${fault.message}. Load it again, and tell whoever runs it.`));
