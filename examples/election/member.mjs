/** A member of an election, as in Raft: it gives one vote in a term, and leads with the votes of more than half. */
const DISK = 50; // milliseconds until a vote stands on the disk, so that it isn't forgotten at a restart

export class Member {
  /** `links` are its ways to all others, by name. With `countsVoters` no voter counts twice. */
  constructor(name, links, recorder, log, countsVoters) {
    Object.assign(this, { name, links, recorder, log, countsVoters });
    this.enter(0);
  }

  enter(term) {
    Object.assign(this, { term, votedFor: undefined, leader: undefined, votes: 0, voters: new Set() });
  }

  /** Stands for the next term, as when it has heard of no leader for a while. */
  stand() {
    this.enter(this.term + 1);
    this.votedFor = this.name;
    this.log(`stands for term ${this.term}`);
    this.count(this.name);
    this.tellAll("ask");
  }

  /** What it does with a message that has come. */
  hear({ id, kind, from, term }) {
    this.recordReceipt(id);
    if (term > this.term) this.enter(term);
    if (kind === "ask") this.answer(from, term);
    if (kind === "yes" || kind === "no") this.links.get(from).isAnswered();
    if (kind === "yes" && term === this.term) this.count(from);
    if (kind === "leads" && term === this.term) this.follow(from);
  }

  recordReceipt(id) {
    try {
      this.recorder.receive(id); // after it has come
    } catch (error) {
      if (error.reason !== "id-twice") throw error;
      this.recorder.event(); // it was sent again, and is a second copy
    }
  }

  /** Gives its vote to the first that asks, and the same answer as before to one that asks again. */
  answer(from, term) {
    if (term === this.term) this.votedFor ??= from;
    const kind = term === this.term && this.votedFor === from ? "yes" : "no";
    this.log(`says ${kind} to ${from} for term ${term}`);
    setTimeout(() => this.tell(from, kind), DISK);
  }

  count(from) {
    this.votes++;
    this.voters.add(from);
    const votes = this.countsVoters ? this.voters.size : this.votes;
    this.log(`has ${votes} of ${this.links.size + 1} votes`);
    if (2 * votes > this.links.size + 1 && this.leader === undefined) this.lead();
  }

  lead() {
    this.leader = this.name;
    this.recorder.event({ leads: 1 });
    this.log(`leads in term ${this.term}`);
    this.tellAll("leads");
  }

  /** Follows the first leader of the term of which it hears. */
  follow(from) {
    if (this.leader !== undefined) return;
    this.leader = from;
    this.log(`follows ${from} in term ${this.term}`);
  }

  tellAll(kind) {
    for (const name of this.links.keys()) this.tell(name, kind);
  }

  tell(name, kind) {
    const id = this.recorder.send(); // before it leaves
    this.links.get(name).send({ id, kind, from: this.name, term: this.term }, kind === "ask");
  }
}
