/* The style of a page. Colours can be told apart with any kind of sight and in grey: what matters
 * has a pattern or a line of its own too. On paper each report has one sheet, where the picture
 * takes what the words leave. */

#include "render/html.h"

static const char page[] =
    "@page{size:A4 portrait;margin:12mm}\n"
    ":root{color-scheme:light}\n"
    "*{box-sizing:border-box}\n"
    "body{margin:0;background:#fff;color:#1a1a1a;"
    "font:16px/1.45 \"Liberation Sans\",Arial,Helvetica,sans-serif}\n"
    "main{max-width:1100px;margin:0 auto;padding:16px}\n"
    "section{margin:0 0 48px}\n"
    "section+section{border-top:1px solid #999;padding-top:24px}\n"
    "h1{font-size:24px;line-height:1.25;margin:0 0 4px;overflow-wrap:anywhere}\n"
    "h1 b{display:inline-block;font-size:15px;vertical-align:3px;margin-left:8px;padding:0 10px;"
    "border:1px solid #1a1a1a;border-radius:12px;font-weight:normal}\n"
    "p,ul{margin:0 0 10px;overflow-wrap:anywhere}\n"
    ".facts{color:#444;font-size:15px}\n"
    ".facts span{display:inline-block;margin-right:18px}\n"
    ".sentence{font-size:18px}\n"
    ".why p{margin:0 0 6px}\n"
    ".wrong{padding-left:20px}\n"
    ".wrong li{margin:0 0 4px}\n"
    ".key{margin:12px 0 0;color:#444;font-size:14px}\n"
    ".key span{display:inline-block;margin-right:18px}\n"
    ".key svg{width:26px;height:13px;margin-right:6px;vertical-align:-1px}\n"
    ".cut{display:none}\n";

static const char pictures[] =
    ".patterns{position:absolute;width:0;height:0}\n"
    ".wide,.narrow{display:block;width:100%;height:auto;margin:12px 0 0}\n"
    ".narrow{display:none;max-width:600px}\n"
    "svg text{fill:#1a1a1a;font-family:inherit}\n"
    "svg tspan{unicode-bidi:isolate}\n"
    ".end{text-anchor:end}\n"
    ".middle{text-anchor:middle}\n"
    ".strong,.label{font-weight:bold}\n"
    "svg .list{fill:#555}\n"
    "svg .list tspan{fill:#1a1a1a}\n"
    ".figure,.strong{paint-order:stroke;stroke:#fff;stroke-opacity:.75;stroke-width:2.5px;"
    "stroke-linejoin:round}\n"
    ".part{stroke:#1f4e79;stroke-width:.7}\n"
    ".light .part{fill:#d4e6f6}\n"
    ".heavy .part{fill:#86b6e0}\n"
    ".booked .part,.taken{fill:url(#booked);stroke:#555;stroke-width:.7}\n"
    ".whole{fill:none;stroke:#1a1a1a;stroke-width:.7}\n"
    ".fullest{stroke-width:2.2}\n"
    ".over{fill:url(#over);stroke:#b23c00;stroke-width:1.5}\n"
    ".room{fill:#fff;stroke:#888;stroke-width:.8}\n"
    ".marked .room{fill:url(#marked);stroke:#b23c00;stroke-width:1.2}\n"
    ".band{fill:#f3f3f0}\n"
    ".thin{stroke-width:.3}\n"
    ".bare{stroke:none}\n"
    ".zero{stroke:#888;stroke-width:.7}\n"
    ".target{stroke:#b23c00;stroke-width:1.8}\n"
    ".far{stroke-width:.7;stroke-opacity:.6}\n"
    ".bound{stroke:#1a1a1a;stroke-width:1;stroke-opacity:.6;stroke-dasharray:4 3}\n"
    ".edge{stroke:#1f4e79;stroke-width:1.2}\n";

static const char media[] =
    "@media screen and (max-width:720px){\n"
    ".wide{display:none}\n"
    ".narrow{display:block}\n"
    "h1{font-size:20px}\n"
    ".sentence{font-size:16px}\n"
    "}\n"
    "@media print{\n"
    "main{max-width:none;padding:0}\n"
    "section{display:flex;flex-direction:column;height:271mm;margin:0;overflow:hidden;"
    "break-inside:avoid}\n"
    "section+section{break-before:page;border:0;padding:0}\n"
    "section>*{flex:none}\n"
    "h1{font-size:15pt}\n"
    "p,li{font-size:9pt;line-height:1.3}\n"
    ".sentence{font-size:10.5pt}\n"
    ".facts,.key{font-size:8.5pt}\n"
    ".wrong li{margin:0 0 2pt}\n"
    ".many li{font-size:7pt;line-height:1.15;margin:0 0 1pt}\n"
    ".wide{flex:0 1 auto;min-height:0;margin-top:2mm}\n"
    ".narrow,.rest{display:none}\n"
    ".cut{display:inline}\n"
    "}\n";

/* Lines across for what is booked, thicker ones for what is past a line, dots for a set. */
static const char patterns[] =
    "<svg class=\"patterns\" aria-hidden=\"true\"><defs>\n"
    "<pattern id=\"booked\" width=\"5\" height=\"5\" patternUnits=\"userSpaceOnUse\" "
    "patternTransform=\"rotate(45)\"><rect width=\"5\" height=\"5\" fill=\"#ececec\"/>"
    "<rect width=\"1.4\" height=\"5\" fill=\"#777\"/></pattern>\n"
    "<pattern id=\"over\" width=\"8\" height=\"8\" patternUnits=\"userSpaceOnUse\" "
    "patternTransform=\"rotate(-45)\"><rect width=\"1.4\" height=\"8\" fill=\"#d55e00\" "
    "fill-opacity=\".7\"/></pattern>\n"
    "<pattern id=\"marked\" width=\"5\" height=\"5\" patternUnits=\"userSpaceOnUse\">"
    "<rect width=\"5\" height=\"5\" fill=\"#fde3cc\"/>"
    "<circle cx=\"2.5\" cy=\"2.5\" r=\".7\" fill=\"#dd8a4e\"/></pattern>\n"
    "</defs></svg>\n";

void html_style(struct text *text)
{
    text_put(text, "<style>\n");
    text_put(text, page);
    text_put(text, pictures);
    text_put(text, media);
    text_put(text, "</style>\n");
}

void html_patterns(struct text *text)
{
    text_put(text, patterns);
}
