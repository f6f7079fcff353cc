/** Of each call that the page shows the function of C, the section that it is of, and the words of its contract. */

const SPEC = "https://spec.commonmark.org/0.31.2/";
const GFM = "https://github.github.com/gfm/";

/** @typedef {{ symbol: string, section: string, url: string, words: string[] }} Contract */

/** @type {(symbol: string, section: string, anchor: string, words: string[], spec?: string) => Contract} */
const contract = (symbol, section, anchor, words, spec = SPEC) => ({ symbol, section, url: `${spec}#${anchor}`, words });

/** @type {Record<string, Contract>} */
export const CONTRACTS = {
    upto: contract("mds_line_space_up_to", "2.2 Tabs", "tabs", ["space_within", "after_space"]),
    quote: contract("mds_line_quote", "5.1 Block quotes", "block-quotes", ["begins_with", "greater_than_sign", "after_quote"]),
    listItem: contract("mds_line_list", "5.2 List items", "list-items", ["item_outcome", "IsTrueStart"]),
    scanBlankLine: contract("mds_scan_blank_line", "4.9 Blank lines", "blank-lines", ["IsBlankLine"]),
    scanHrule: contract("mds_scan_hrule", "4.1 Thematic breaks", "thematic-breaks", ["IsThematicBreakLine", "NoBreakBefore"]),
    scanAtxHeading: contract("mds_scan_atx_heading", "4.2 ATX headings", "atx-headings", ["IsAtxHeading"]),
    scanSetextHeading: contract("mds_scan_setext_heading", "4.3 Setext headings", "setext-headings", ["IsSetextUnderline"]),
    scanCodeFence: contract("mds_scan_code_fence", "4.5 Fenced code blocks", "fenced-code-blocks", ["IsCodeFence"]),
    scanClosingCodeFence: contract("mds_scan_closing_code_fence", "4.5 Fenced code blocks", "fenced-code-blocks", ["IsClosingCodeFence"]),
    scanHtmlBlockStart: contract("mds_scan_html_block_start", "4.6 HTML blocks", "html-blocks", ["IsHtmlBlockStart"]),
    endsHtmlBlock: contract("mds_ends_html_block", "4.6 HTML blocks", "html-blocks", ["is_html_end"]),
    interruptsParagraph: contract("mds_interrupts_paragraph", "4.8 Paragraphs", "paragraphs", ["InterruptsParagraph"]),
    scanTableHead: contract("mds_scan_table_head", "4.10 Tables (GFM)", "tables-extension-", ["IsTableHead", "IsDelimiterRow"], GFM),
    unescape: contract("mds_unescape", "2.4 Backslash escapes", "backslash-escapes", ["IsUnescapedText"]),
    scanLinkLabel: contract("mds_scan_link_label", "6.3 Links", "link-label", ["IsScannedLabel"]),
    scanLinkDest: contract("mds_scan_link_dest", "6.3 Links", "link-destination", ["IsDestinationPart"]),
    scanAutolink: contract("mds_scan_autolink", "6.5 Autolinks", "autolinks", ["IsAutolinkPart", "IsUriAutolink"]),
    scanHtmlTagOverLines: contract("mds_scan_html_tag_over_lines", "6.6 Raw HTML", "raw-html", ["IsScannedTag"]),
    scanInlineHtml: contract("mds_scan_inline_html", "6.6 Raw HTML", "raw-html", ["IsGuardedEnd", "IsTrueEnd", "IsScanInTurn"]),
};
