/** The reserved words of the language. */
export const RESERVED = "model var bool clip table watch vertex set draw from in by schedule urgent cancel all after priority when end not and or if then else true false clk min max version certificate prune settle drop merge slice".split(" ");
