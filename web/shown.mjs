// What is looked at, and how: state of the page that changes no run.
const Shown = {
  by: "record", // the order of the picture: `record`, or `depth` of causes
  theme: "light",
  zoom: 1,
  fit: "none", // what is made to fit into the window: `none`, the whole `run`, or what is `lit`
  kept: null, // the run that was kept, above the one that goes on
  chosen: null, // `{ step }` or `{ goal }`
  slice: null, // the steps on which something rests that was explained: `{ isIn, count }`, by their places in the record
  visited: null, // the step that one has come to among those that are lit
  asked: null, // the part of a call that is asked about, and what was told right: `{ goal, isIn, count, isRight }`, likewise
};

export default Shown;
