// What is half filled in, kept in this tab until it is taken: it survives another form, another
// view and a reload.

// These come first, since the choices of others follow them.
const FIRST = ['on', 'what', 'year', 'levy_year', 'back', 'fund', 'dept'];

export class Drafts {
    constructor(me) {
        this.mark = `draft ${encodeURIComponent(me.user)} ${me.desk} `;
    }

    /**
     * The fields of a form by their names, and its items. A day is kept only where it was chosen.
     */
    keep(name, form, hasDay, ownKey, ticked = []) {
        const fields = {}, items = [], isLeft = ({name: own}) => !own || own === 'on' && !hasDay || own === 'key' && !ownKey || /^voucher-/.test(own);
        for (const input of form.elements) {
            if (isLeft(input) || input.closest('.item')) continue;
            if (input.type === 'checkbox') { if (input.checked) fields[input.name] = true; } else if (input.value) fields[input.name] = input.value;
        }
        for (const item of form.querySelectorAll('.item')) {
            items.push(Object.fromEntries([...item.querySelectorAll('[name]')].map(input => [input.name, input.type === 'checkbox' ? input.checked : input.value])));
        }
        this.store(name, {fields, items, ownKey, key: form.elements.key.value, ticked: [...ticked]});
    }

    store(name, draft) {
        try {
            sessionStorage.setItem(this.mark + name, JSON.stringify(draft));
        } catch {
            // Without room the form alone has it.
        }
    }

    /**
     * What was taken while another form was shown is half filled in no more. Vouchers that were
     * paid aren't ticked.
     */
    took({call: name, key, family, text}) {
        const draft = this.of(name);
        if (!draft) return;
        const {vouchers = []} = JSON.parse(text);
        const ticked = draft.ticked.filter(number => !vouchers.includes(number));
        // The calls of a family have numbers behind the key of the form.
        const isWhole = family ? key.startsWith(draft.key + '-') && !ticked.length : draft.key === key;
        if (isWhole) this.forget(name);
        else if (vouchers.length) this.store(name, {...draft, ticked});
    }

    forget(name) {
        sessionStorage.removeItem(this.mark + name);
    }

    of(name) {
        return JSON.parse(sessionStorage.getItem(this.mark + name));
    }

    /** Fills a form in from a draft. */
    fill({fields, items}, form, more) {
        const names = Object.keys(fields).filter(name => !FIRST.includes(name) && name !== 'key');
        for (const name of [...FIRST, ...names, 'key']) if (name in fields) set(form.elements.namedItem(name), fields[name]);
        items.forEach((item, place) => {
            if (place) more();
            const box = form.querySelectorAll('.item')[place];
            for (const [name, value] of Object.entries(item)) set(box?.querySelector(`[name="${name}"]`), value);
        });
    }
}

/** Puts a value into an input as a clerk would. */
export function set(input, value) {
    if (!input || !('value' in input) || input instanceof RadioNodeList || input.disabled) return;
    if (input.type === 'checkbox') input.checked = Boolean(value);
    else if (input.value === String(value)) return;
    else input.value = String(value);
    input.dispatchEvent(new Event('change', {bubbles: true}));
}
