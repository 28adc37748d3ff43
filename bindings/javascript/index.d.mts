// The declarations for `import`: those for `require`, and no default export.
export * from "./index.js";
