// The refusals by name; made by tools/refusals --write from docs/refusals.tsv.

/** Why the engine refused: the refusals of docs/MODEL.md, with their numbers.
 * @enum {number} */
export const Refusal = Object.freeze({
  Length: 1,
  Version: 2,
  Counts: 3,
  Size: 4,
  Limits: 5,
  Rates: 6,
  StepInput: 7,
  StepsDone: 8,
  ReleaseAboveQueue: 9,
  ReleaseAboveSupply: 10,
  ListLength: 11,
  ScheduleLength: 12,
  OutflowAboveDemand: 13,
  EnteringAboveRoom: 14,
  TargetLength: 15,
  LawNumbers: 16,
  LanesLength: 17,
  Lanes: 18,
  Seconds: 19,
  RoadsDiffer: 20,
  SecondGate: 21,
  JoinedSize: 22,
  WantedInput: 23,
  StreetInput: 24,
  Peak: 25,
  CallerLimits: 26,
  ManyLengths: 27,
});
