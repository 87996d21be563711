//! The styles of pictures and of the page, on the screen and on paper.

/// The style and the hatching that every picture uses, once on a page.
pub const PICTURE: &str = "<style>
.board text { font-family: Arial, Helvetica, \"DejaVu Sans\", sans-serif; text-anchor: middle; fill: #111 }
.board .waste { fill: url(#hatching); stroke: #111; stroke-width: 1.5 }
.board .offcut { fill: #f2f7ee; stroke: #7a9a6a; stroke-width: 1; stroke-dasharray: 2 2 }
.board .usable { fill: #cfe6bf }
.board .item { stroke: #333; stroke-width: 1 }
.board .swath { fill: #a8784a }
.board .turned { fill: #333 }
.board .strip { stroke: #b00020; stroke-width: 2 }
.board .stack { stroke: #b00020; stroke-width: 1; stroke-dasharray: 5 3 }
.board .mark rect { fill: #fff; stroke: #333; stroke-width: 0.5 }
.board .leader { fill: none; stroke: #333; stroke-width: 0.5 }
.board .title, .board .beside { text-anchor: start }
</style>
<defs><pattern id=\"hatching\" width=\"8\" height=\"8\" patternUnits=\"userSpaceOnUse\">
<rect width=\"8\" height=\"8\" fill=\"#f4f4f4\"/>
<path d=\"M-2,2 L2,-2 M0,8 L8,0 M6,10 L10,6\" stroke=\"#bbb\" stroke-width=\"1\"/>
</pattern></defs>
";

/// The head of the page; patterns out of sight are not laid out until they are scrolled to. On
/// paper, A4 lying on its side, each pattern begins a sheet. Names, which stand in the second column or in
/// the last, are broken anywhere where a list has no room for them; "stack cut" never is.
pub const HEAD: &str = "<!DOCTYPE html>
<html lang=\"en\"><head><meta charset=\"utf-8\"><title>Boards</title>
<style>
body { font-family: Arial, Helvetica, \"DejaVu Sans\", sans-serif; margin: 1.5em; color: #111 }
table { border-collapse: collapse; margin: 0.6em 1.5em 0.6em 0; font-size: 13px }
th, td { border: 1px solid #999; padding: 0.1em 0.5em; text-align: right }
.words { text-align: left }
td:nth-child(2), .lists td:last-child { overflow-wrap: anywhere }
tr, svg { break-inside: avoid }
thead { break-after: avoid }
section { margin: 1em 0; content-visibility: auto }
.beside { display: flex; align-items: flex-start }
.beside svg { flex: none }
.lists { columns: 380px; column-gap: 12px; flex: 1 }
.lists table { font-size: 12px; margin: 0 0 0.8em 0; max-width: 100%; white-space: nowrap }
.lists td:nth-child(2), .lists td:last-child { white-space: normal }
.lists td.cut { white-space: nowrap }
svg { max-width: 100%; height: auto }
@page { size: A4 landscape; margin: 10mm }
@media print {
  * { print-color-adjust: exact; -webkit-print-color-adjust: exact }
  body { margin: 0 }
  table, .lists table { font-size: 10.5px }
  .lists { columns: 310px }
  section { margin: 0; break-before: page; content-visibility: visible }
}
</style></head><body>
";
