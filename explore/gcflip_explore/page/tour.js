// The guided tour: what to look at in each step of two traces.

import { byId, make } from "./elements.js";
import { say } from "./server.js";

const [FIRST, SECOND] = ["write_while_scanning", "sharing_and_a_cycle"];

// For each stop: the trace, if it is not the first one, the number of events that are played, the places of the page to look at, a title, and
// paragraphs. `reply` is the reply to the last event; the tests compare it with the program's. A stop with `checks` shows the certificate in the
// other tab, and the verdict that it begins with.
export const STOPS = [
  {
    position: 0, look: ["trace", "heap"], title: "A program, a collector, and one heap",
    text: ["A program, which we call the mutator, uses objects. Some of them become garbage: nothing refers to them any more. A copying " +
      "collector gets their room back. It copies the objects that are still in use to a new space, and then the program goes on there. " +
      "This change of spaces is called the flip.",
    "The collector of this page copies while the program keeps running. That is the difficulty: the program can change an object whose copy " +
      "is already made. In this tour you see it happen.",
    "A trace lists what happens, one event in each line. A line with m is an act of a mutator, and a line with c is a step of the collector. " +
      "The reply to an event stands beside its line once it is played."],
  },
  {
    position: 1, reply: "made", look: ["picture"], title: "An object",
    text: ["The mutator made an object. It takes three words: a header, a link for the collector, and one field, which holds nil. Its " +
      "address is 1, since word 0 is reserved.",
    "The slot r0 refers to the object. Slots are the roots: what they lead to is in use, and everything else is garbage."],
  },
  {
    position: 2, reply: "done", look: ["roots"], title: "A number for later",
    text: ["The mutator put the number 9 into its slot r1. It will write it to the field soon."],
  },
  {
    position: 3, reply: "begun", look: ["picture", "logs"], title: "A collection begins",
    text: ["The collector opened a collection. There is a second space now, the new one, and it is empty. The mutator stays in the old space.",
      "There is also an empty log for each mutator. You will see what it is for."],
  },
  {
    position: 4, reply: "copied", look: ["picture"], title: "A replica",
    text: ["The collector looked at a root, r0, and gave its target a replica, a copy in the new space. The dotted line joins the two. Their " +
      "link words hold each other's addresses. All such pairs together are the certificate.",
    "The replica's field is nil, because the collector has not copied it yet. The violet scan pointer stands in front of this field."],
  },
  {
    position: 5, reply: "scanned", look: ["picture"], title: "The field is copied",
    text: ["The collector scanned the field: it read nil from the original, and wrote nil to the replica. The scan pointer moved behind the " +
      "field.",
    "The pointer only moves forward. Scanning never looks at this field again."],
  },
  {
    position: 6, reply: "done", look: ["picture", "logs", "certificate"], title: "The program writes, and the copy is out of date",
    text: ["The mutator wrote 9 to the field of the original. Look at both spaces: the original has 9, and the replica still has nil. " +
      "Scanning is past this field, so it cannot find the write.",
    "But the write left an entry in the log: the object at 1, field 0.",
    "Before each flip a checker compares the objects of each pair, field by field. If the collector flipped now, the checker would refuse: in " +
      "pair 0, field 0 does not correspond. The 9 would be lost."],
  },
  {
    position: 7, reply: "passed", look: ["picture", "certificate"], title: "Nothing is left to scan",
    text: ["The scan pointer is at the end, so the collector has scanned everything. Still, the replica has nil where the original has 9.",
      "A collector without a log would believe that it is done. Only the log knows better."],
  },
  {
    position: 8, reply: "not ready", look: ["certificate"], title: "Not ready",
    text: ["The collector tried to flip. The reply is 'not ready', because a log has an entry. The list of conditions shows it."],
  },
  {
    position: 9, reply: "applied", look: ["picture", "logs", "certificate"], title: "The log repairs the copy",
    text: ["The collector applied the entry. An entry has no value: it says which field to read once more. The collector read 9 from the " +
      "original and wrote it to the replica.",
    "The log is empty now, all three conditions hold, and the checker says yes."],
  },
  {
    position: 10, reply: "flipped 1", look: ["picture"], title: "The flip",
    text: ["The collector handed over the certificate, the checker accepted its one pair, and the collection is over. The root r0 refers to " +
      "the replica. Nobody uses the old space any more, nor the garbage that is in it. It is kept until the next collection."],
  },
  {
    position: 11, reply: "saw num 9", look: ["trace", "event"], title: "Nothing was lost",
    text: ["The mutator read the field, and found its 9. It cannot tell that the object moved.",
      "So this is why a log is needed: the program can write to an object after the collector has copied it. The log names the field, and the " +
      "collector copies it again before the flip.",
    "The second part has more than one object: garbage, sharing and a cycle. You can also end the tour here."],
  },
  {
    trace: SECOND, position: 2, reply: "made", look: ["picture"], title: "Two objects",
    text: ["This is another program. It made an object with two fields at 1, to which r0 refers, and one with a single field at 5, to which r1 refers."],
  },
  {
    trace: SECOND, position: 5, reply: "done", look: ["picture"], title: "Sharing and a cycle",
    text: ["Both fields of the first object refer to the second one: it is shared. The field of the second refers back to the first: a cycle. A copy " +
      "that made two replicas of the shared object, or that followed the cycle for ever, would be wrong."],
  },
  {
    trace: SECOND, position: 8, reply: "done", look: ["picture", "roots"], title: "Garbage",
    text: ["The program gave up r1. The second object stays in use, since the first one refers to it. Then the program made an object at 8 and gave up " +
      "r2, the only reference to it. The object is grey now: no path from a root leads to it."],
  },
  {
    trace: SECOND, position: 11, reply: "scanned", look: ["picture", "certificate"], title: "A replica by scanning",
    text: ["A collection began, the target of r0 got its replica, and the first field was scanned. It refers to the object at 5, which had no replica. So " +
      "that object got one, and the replica's field refers to it."],
  },
  {
    trace: SECOND, position: 12, reply: "scanned", look: ["picture"], title: "One replica for both references",
    text: ["The second field refers to the same object. Its link says that it has a replica already, so no second one is made. The sharing is kept."],
  },
  {
    trace: SECOND, position: 14, reply: "scanned", look: ["picture"], title: "The cycle is closed",
    text: ["The scan pointer moved on to the second replica. Its field refers to the first object, which has a replica too. The cycle is copied, and " +
      "nobody followed it: the pointer only moves forward."],
  },
  {
    trace: SECOND, position: 15, reply: "done", look: ["picture", "logs"], title: "A write that would be lost",
    text: ["The program wrote to the second field of the first object: it refers to the object itself now. Its replica was scanned before, and still " +
      "refers to the other one. The log has the entry."],
  },
  {
    trace: SECOND, position: 16, reply: "passed", checks: "refused 9 FieldDiffers 0 1", look: ["verdict"], title: "The checker refuses",
    text: ["Everything is scanned. Suppose that the collector forgot its log and asked for a flip now. This is the pair text that the checker would get: " +
      "both heaps and the certificate.",
    "The checker refuses, and names the place: pair 0, field 1. The tables show both words, and the first line below names the path from a root. You " +
      "can spoil a word here yourself later."],
  },
  {
    trace: SECOND, position: 18, reply: "applied", look: ["picture", "certificate"], title: "The entry is applied",
    text: ["This collector does not forget its log: the flip was not ready, and then it applied the entry. The replica refers to itself now, as the " +
      "original does, and the checker says yes."],
  },
  {
    trace: SECOND, position: 19, reply: "flipped 2", look: ["picture"], title: "The garbage is gone",
    text: ["The flip had two pairs. The object at 8 has no replica, so its words are free. Nobody had to find it: what is not copied is gone."],
  },
  {
    trace: SECOND, position: 21, reply: "yes", look: ["trace", "event"], title: "The program goes on",
    text: ["The program read the field, and compared: both slots refer to one object. The write was kept, and so was the cycle.",
    "Now try it yourself. Delete the line 'c apply 0', and the last flip is not ready either. Or go back to event 15, press 'Work' again and again, and " +
      "see which steps the collector chooses."],
  },
];

export class Tour {
  // `show` brings a tab to the front.
  constructor(collector, checker, show) {
    this.collector = collector;
    this.checker = checker;
    this.show = show;
    byId("tour-next").addEventListener("click", () => (this.at + 1 < STOPS.length ? this.stop(this.at + 1) : this.end()));
    byId("tour-back").addEventListener("click", () => this.stop(this.at - 1));
    byId("tour-end").addEventListener("click", () => this.end());
  }

  // The reader's own texts are kept, and given back at the end.
  start() {
    this.kept = this.collector.state();
    this.keptPair = this.checker.state();
    this.show("collector");
    byId("tour").hidden = false;
    byId("lead").hidden = true;
    document.body.classList.add("touring");
    return this.stop(0);
  }

  async stop(at) {
    this.at = at;
    const { trace = FIRST, position, look, title, text, checks } = STOPS[at];
    byId("tour-title").textContent = title;
    byId("tour-text").replaceChildren(...text.map((paragraph) => make("p", {}, paragraph)));
    byId("tour-place").textContent = `${at + 1} of ${STOPS.length}`;
    byId("tour-back").disabled = at === 0;
    byId("tour-next").textContent = at + 1 < STOPS.length ? "Next" : "Done";
    this.point(look);
    this.show("collector");
    await this.collector.showExample(trace, position);
    if (checks) {
      await this.collector.certificate();
    } else if (this.isPairShown) {
      this.checker.restore(this.keptPair);
    }
    this.isPairShown = Boolean(checks);
    byId("tour-title").focus();
  }

  // Marks the places to look at.
  point(places) {
    for (const pointed of document.querySelectorAll(".pointed")) {
      pointed.classList.remove("pointed");
    }
    for (const place of places) {
      byId(place).classList.add("pointed");
    }
  }

  end() {
    this.point([]);
    byId("tour").hidden = true;
    document.body.classList.remove("touring");
    if (this.isPairShown) {
      this.checker.restore(this.keptPair);
    }
    this.isPairShown = false;
    if (this.kept.name !== FIRST) {
      this.collector.restore(this.kept).then(() => say("The tour is over. Your trace is back."));
    }
    byId("tour-start").focus();
  }
}
