// The library for C as a module of WebAssembly, over a device that can lose its power. It is compiled for another target than the toolchain
// proves for. embed/silgwyrad.h says what is written to the two numbers and read from them.
export const BLOCKS = 64, SECTORS = 32 + 16 * BLOCKS, SECTOR = 512, BLOCK = 1024, IN_PAGE = 8;
const DEVICE = 1, CONSOLE = 2, SYNC = "s".charCodeAt(0), MEMORY_PAGE = 65536;

// A device of sectors, in pages of eight as a file's. A write changes `now`; `synced` is what the last sync settled. At the call with the number
// `plug` the power fails: that call never returns.
export class Device {
    constructor(bytes) {
        this.now = bytes ?? new Uint8Array(SECTORS * SECTOR);
        this.synced = this.now.slice();
        this.unsynced = new Set();
        this.counts = { read: 0, write: 0, sync: 0 };
        this.plug = null;
        this.off = false;
        this.kept = async () => {}; // keeps these sectors for good
        this.stopped = () => {};
    }
    fails(name, k) {
        if (this.off) return true;
        if (this.plug !== null && this.plug-- === 0) {
            this.off = true;
            this.stopped(name, k);
            return true;
        }
        this.counts[name]++;
        return false;
    }
    read(k) { return this.now.subarray(k * SECTOR, (k + 1) * SECTOR); }
    write(k, bytes) { this.now.set(bytes, k * SECTOR); this.unsynced.add(k); }
    async sync() {
        const sectors = [...this.unsynced];
        await this.kept(sectors.map(k => [k, this.read(k).slice()]));
        for (const k of sectors) this.synced.set(this.read(k), k * SECTOR);
        this.unsynced.clear();
    }
    // The pages in which a sector was written and not synced.
    get pages() { return [...new Set([...this.unsynced].map(k => Math.floor(k / IN_PAGE)))].sort((a, b) => a - b); }
    // What a stop left, where each such page is lost, kept or torn: all of its eight sectors may be spoiled.
    static after(device, fates) {
        const image = device.now.slice(), page = IN_PAGE * SECTOR;
        for (const p of device.pages) {
            const fate = fates.get(p) ?? "lost", at = p * page;
            if (fate === "lost") image.set(device.synced.subarray(at, at + page), at);
            if (fate === "torn") for (let i = 0; i < page; i++) if (i % 7 < 4 || i > 200) image[at + i] = (i * 37 + p) & 255;
        }
        return new Device(image);
    }
}

const never = new Promise(() => {});

export class System {
    // `take` promises the next bytes of input, or null at its end; `show` takes the bytes of a reply.
    constructor(module, device, take, show) {
        this.device = device;
        const number = Number;
        const bytes = (at, n) => new Uint8Array(this.memory.buffer, number(at), number(n));
        let waiting = new Uint8Array(0), asked = 0;
        const free = new Map(), sizes = new Map();
        const alloc = n => {
            n = Math.max(16, (n + 15) & ~15);
            const list = free.get(n);
            let at = list?.pop();
            if (at === undefined) {
                at = this.top;
                this.top += n;
                const lack = this.top - this.memory.buffer.byteLength;
                if (lack > 0) this.memory.grow(BigInt(Math.ceil(lack / MEMORY_PAGE)));
            }
            sizes.set(at, n);
            return at;
        };
        const dealloc = at => {
            const n = sizes.get(at);
            if (!free.has(n)) free.set(n, []);
            free.get(n).push(at);
            sizes.delete(at);
        };
        const tried = (out, at) => {
            const v = new DataView(this.memory.buffer);
            v.setUint8(number(out), 1);
            v.setBigUint64(number(out) + 8, BigInt(at), true);
        };
        const suspending = f => new WebAssembly.Suspending(f);
        const env = {
            write: suspending(async (to, from, n) => {
                if (to !== DEVICE) { show(bytes(from, n).slice()); return n; }
                const these = bytes(from, n);
                if (number(n) === SECTOR) {
                    if (device.fails("write", asked)) return never;
                    device.write(asked, these);
                } else if (these[0] === SYNC) {
                    if (device.fails("sync")) return never;
                    try { await device.sync(); } catch { return 0n; }
                } else asked = new DataView(this.memory.buffer).getUint32(number(from) + 4, true);
                return n;
            }),
            read: suspending(async (from, to, n) => {
                if (from === DEVICE) {
                    if (device.fails("read", asked)) return never;
                    bytes(to, n).set(device.read(asked));
                    return n;
                }
                // a byte of the input comes behind a 1, and its end as zeros
                if (!waiting.length) waiting = (await take()) ?? waiting;
                bytes(to, 2).set(waiting.length ? [1, waiting[0]] : [0, 0]);
                waiting = waiting.subarray(1);
                return 2n;
            }),
            rattle_alloc: (out, n, a) => tried(out, alloc(Math.max(number(n), number(a)))),
            rattle_realloc: (out, old, kept, n, a) => {
                const at = alloc(Math.max(number(n), number(a)));
                bytes(at, Math.min(number(kept), number(n))).set(bytes(old, Math.min(number(kept), number(n))));
                dealloc(number(old));
                tried(out, at);
            },
            rattle_dealloc: at => dealloc(number(at)),
            // the compiler's own: a product of 128 bits
            __multi3: (out, low, high, byLow, byHigh) => {
                const whole = (low, high) => (BigInt.asUintN(64, high) << 64n) | BigInt.asUintN(64, low);
                const product = whole(low, high) * whole(byLow, byHigh), view = new DataView(this.memory.buffer);
                view.setBigUint64(number(out), BigInt.asUintN(64, product), true);
                view.setBigUint64(number(out) + 8, BigInt.asUintN(64, product >> 64n), true);
            },
        };
        this.instance = new WebAssembly.Instance(module, { env });
        const x = this.instance.exports;
        this.memory = x.memory;
        this.top = (number(x.__heap_base.value) + 15) & ~15;
        this.call = name => WebAssembly.promising(x[name]);
        this.place = words => {
            const at = alloc(words.byteLength);
            bytes(at, words.byteLength).set(new Uint8Array(words.buffer, words.byteOffset, words.byteLength));
            return BigInt(at);
        };
    }
    format() { return this.call("silgwyrad_format")(DEVICE, SECTORS, BLOCKS); }
    save(block, text) {
        return this.call("silgwyrad_save")(DEVICE, SECTORS, this.place(Uint16Array.of(block)), 1n, this.place(text), BigInt(text.length));
    }
    run(steps = 50_000_000) { return this.call("silgwyrad_run")(DEVICE, SECTORS, CONSOLE, CONSOLE, steps); }
}

// ---- the layout of an image: docs/IMAGE.md, Layout 3

const GATE = 8, OPEN_RECORD = 16, OTHER_RECORD = 24, PLACES = 32, IN_BLOCK = 16;

// What a page of eight sectors is for.
export function part(page) {
    const k = page * IN_PAGE;
    if (k < PLACES) return { 0: "label", [GATE]: "gate", [OPEN_RECORD]: "record of an open gate", [OTHER_RECORD]: "record of a closed gate" }[k];
    return `block ${Math.floor((k - PLACES) / IN_BLOCK)}, ${(k - PLACES) % IN_BLOCK ? "second" : "first"} place`;
}

const differing = (bytes, text) => [...text].reduce((n, c, i) => {
    for (let x = bytes[i] ^ c.charCodeAt(0); x; x &= x - 1) n++;
    return n;
}, 0);

export const gateOpen = image => {
    const bytes = image.subarray(GATE * SECTOR, GATE * SECTOR + 8);
    return differing(bytes, "COMMIT83") < differing(bytes, "\0".repeat(8));
};

// Whether the second place of a block counts, by the record that the gate names.
export const isSecond = (image, b) => ((image[(gateOpen(image) ? OPEN_RECORD : OTHER_RECORD) * SECTOR + (b >> 3)] >> (b & 7)) & 1) === 1;

export const pageOf = (b, second) => (PLACES + IN_BLOCK * b) / IN_PAGE + (second ? 1 : 0);

// The bytes of a page's block, and those that a block means in an image.
export const textIn = (image, page) => image.subarray(page * IN_PAGE * SECTOR, page * IN_PAGE * SECTOR + BLOCK);
export const meaning = (image, b) => textIn(image, pageOf(b, isSecond(image, b)));

// ---- the image in the browser's own store: a sync has ended when its transaction is on the disk

export function store(name) {
    return new Promise((well, ill) => {
        const asked = indexedDB.open(name, 1);
        asked.onupgradeneeded = () => asked.result.createObjectStore("sectors");
        asked.onerror = () => ill(asked.error);
        asked.onsuccess = () => well({
            load: () => new Promise((well, ill) => {
                const image = new Uint8Array(SECTORS * SECTOR);
                const cursor = asked.result.transaction("sectors").objectStore("sectors").openCursor();
                let any = false;
                cursor.onerror = () => ill(cursor.error);
                cursor.onsuccess = () => {
                    const at = cursor.result;
                    if (!at) return well(any ? image : null);
                    any = true;
                    image.set(at.value, at.key * SECTOR);
                    at.continue();
                };
            }),
            keep: sectors => new Promise((well, ill) => {
                const change = asked.result.transaction("sectors", "readwrite", { durability: "strict" });
                for (const [k, bytes] of sectors) change.objectStore("sectors").put(bytes, k);
                change.oncomplete = () => well();
                change.onerror = change.onabort = () => ill(change.error);
            }),
        });
    });
}
