"""Refusals: number to its name in C and in Rust (None where the archive never gives it), what it means, and what to do. Made by bin/make-tables."""

REFUSALS = {
    1: (
        'LENS_OUTPUT_SMALL', 'OUTPUT_SMALL',
        "the output lent is under 256 bytes (a list, a value), 4,096 (a plan), 2,048 (a sheet, JSON) or 16,384 (a sheet's text)",
        'lend a larger one',
    ),
    2: (
        'LENS_SCRATCH_SMALL', 'SCRATCH_SMALL',
        'the scratch lent is under 65,536 bytes',
        'lend more',
    ),
    3: (
        'LENS_ALLOWANCE_RANGE', 'ALLOWANCE_RANGE',
        'the allowance is 0 or over 1,000,000',
        'allow 1 to 1,000,000 steps',
    ),
    10: (
        'LENS_SHEET_KIND', 'SHEET_KIND',
        'a record of the sheet has an unknown kind or stands out of its place',
        'send one 01, then the 20s, then the nodes',
    ),
    11: (
        'LENS_SHEET_CUT', 'SHEET_CUT',
        'the sheet ends within a record',
        'send it whole',
    ),
    12: (
        'LENS_SHEET_FULL', 'SHEET_FULL',
        'the sheet has a 9th section or a 201st node',
        'make it smaller',
    ),
    13: (
        'LENS_SHEET_RANGE', 'SHEET_RANGE',
        'k, a node, section, test or the number of a 1D is out of range',
        'k is 1 to 16, a test 0 to 6, a 1D over 65,535; nodes name later ones',
    ),
    14: (
        'LENS_SHEET_EMPTY', 'SHEET_EMPTY',
        'the sheet has no byte or no node',
        'send a sheet with a node',
    ),
    20: (
        'LENS_PLAN_MALFORMED', 'PLAN_MALFORMED',
        'a value of the plan is cut or malformed',
        'send it whole, with known kinds, lists as rests, an 06 only over 65,535',
    ),
    21: (
        'LENS_PLAN_LONG', 'PLAN_LONG',
        'a value of the plan has over 256 bytes',
        'make it shorter',
    ),
    22: (
        'LENS_PLAN_COUNT', 'PLAN_COUNT',
        'the plan has too few values, or bytes behind them',
        "send as many values as the sheet's k says, and nothing else",
    ),
    23: (
        'LENS_VARIABLE', 'VARIABLE',
        "the variable's number is not below the count of the starts, or the sheet's k",
        'ask for one that the plan has',
    ),
    24: (
        'LENS_STARTS', 'STARTS',
        "the starts are not 1 to 16 numbers that rise from 0, all below the plan's length",
        'load the plan anew',
    ),
    30: (
        'LENS_VIEW_MALFORMED', 'VIEW_MALFORMED',
        'the list sent back, or the value for JSON, is cut or malformed',
        'send it whole, with known kinds, lists as rests, an 06 only over 65,535',
    ),
    31: (
        'LENS_VIEW_LONG', 'VIEW_LONG',
        'the list sent back, or the value for JSON, has over 256 bytes',
        'make it shorter',
    ),
    32: (
        'LENS_VIEW_COUNT', 'VIEW_COUNT',
        'the list sent back, or the value for JSON, is not exactly one value',
        'send one, with nothing behind it',
    ),
    40: (
        'LENS_DEPTH', 'DEPTH',
        'the walk goes deeper than 48 nodes',
        'shorten the list, or nest the sheet less',
    ),
    41: (
        'LENS_SPENT', 'SPENT',
        'the allowance is spent before the walk ends',
        'allow more steps',
    ),
    42: (
        'LENS_SCOPE', 'SCOPE',
        'the sheet names a variable that is not in scope',
        'correct the sheet',
    ),
    43: (
        'LENS_VALUE_KIND', 'VALUE_KIND',
        'a value taken apart, added to or used as a rest is of the wrong kind',
        'correct the plan or the sheet, or undo an edit that a default uses',
    ),
    44: (
        'LENS_VALUE_LONG', 'VALUE_LONG',
        'a value made on the way has over 256 bytes',
        "shorten the plan's values or the list",
    ),
    45: (
        'LENS_SUM', 'SUM',
        'a sum is over 65,535',
        'lower the number that is added to',
    ),
    46: (
        'LENS_TEST', 'TEST',
        'a branch gives what its own test refuses',
        'correct the test or the branch in the sheet',
    ),
    50: (
        'LENS_CONSTANT', 'CONSTANT',
        'the list sent back changes what the sheet fixes',
        'put the fixed part back as it was',
    ),
    51: (
        'LENS_VIEW_KIND', 'VIEW_KIND',
        'a part of the list sent back is of another kind than the sheet gives',
        'keep the kinds as they were read out',
    ),
    52: (
        'LENS_VIEW_BELOW', 'VIEW_BELOW',
        'a number of the list sent back is below the amount that the sheet adds',
        'raise it to that amount or more',
    ),
    53: (
        'LENS_NO_BRANCH', 'NO_BRANCH',
        'the list sent back passes the test of neither branch of a case',
        'undo that edit, or give the sheet a test that allows it',
    ),
    54: (
        'LENS_CLASH', 'CLASH',
        'two places of the list sent back that come from one variable differ',
        'edit both alike',
    ),
    60: (
        None, None,
        'the input is no job: its first byte is unknown, it is cut, or bytes stand behind the plan of a get',
        'send a whole job',
    ),
    61: (
        None, None,
        'the input has over 8,192 bytes',
        'make the job smaller',
    ),
    70: (
        'LENS_JSON_MALFORMED', 'JSON_MALFORMED',
        'the text is not JSON for a value, or a number in it is over 4,294,967,295',
        'send false, true, plain numbers, arrays, objects of a, then b',
    ),
    71: (
        'LENS_JSON_DEPTH', 'JSON_DEPTH',
        'arrays and objects nest 49 deep',
        'nest them at most 48 deep',
    ),
    72: (
        'LENS_JSON_LONG', 'JSON_LONG',
        'the value of the text has over 256 bytes',
        'make it shorter',
    ),
    80: (
        'LENS_TYPES_MALFORMED', 'TYPES_MALFORMED',
        'a type is malformed or has over 256 bytes, or the types are too few or too many',
        'send one for each place that the sheet has',
    ),
    81: (
        'LENS_NODE_TWICE', 'NODE_TWICE',
        'a node of the sheet is used twice as a child or a root',
        'give each use a node of its own',
    ),
    82: (
        'LENS_NODE_TYPE', 'NODE_TYPE',
        "a node's type does not go with its kind, its scope, its place or its children's types",
        'correct the node or the type',
    ),
    83: (
        'LENS_SHEETS_DIFFER', 'SHEETS_DIFFER',
        'the two sheets have another k',
        'join sheets of one plan',
    ),
    84: (
        'LENS_JOIN_FULL', 'JOIN_FULL',
        'both sheets together, with the pair, have over 200 nodes or 8 sections',
        'make one of them smaller',
    ),
    85: (
        'LENS_NEW_PLAN', 'NEW_PLAN',
        'the new plan is malformed, has a value of over 256 bytes, or another count of values than k',
        'send k values, whole and not too long',
    ),
    87: (
        'LENS_OTHER_KIND', 'OTHER_KIND',
        'the sheet has a node of another kind than 10 to 16, 1B and 1D',
        'ask of a sheet without cases, splits, calls and eaches',
    ),
    88: (
        'LENS_GROWTH_LARGE', 'GROWTH_LARGE',
        'the variable counts over 256 times in the list, so that no plan reads out',
        'use it less often in the sheet',
    ),
    90: (
        'LENS_TEXT_TOKEN', 'TEXT_TOKEN',
        'another token is expected in the text, or the text ends too early',
        'write what is expected there',
    ),
    91: (
        'LENS_TEXT_NAME', 'TEXT_NAME',
        'a name in the text stands for nothing: no variable is in scope, or no section is written, by that name',
        'correct the name',
    ),
    92: (
        'LENS_TEXT_TAKEN', 'TEXT_TAKEN',
        'a name in the text is given twice, in one scope or to two sections',
        'choose another name',
    ),
    93: (
        'LENS_TEXT_NUMBER', 'TEXT_NUMBER',
        'a number in the text has a 0 in front or a letter behind it, or is too large',
        'write it in decimal, within its limit',
    ),
    94: (
        'LENS_TEXT_FULL', 'TEXT_FULL',
        'the text has a 17th value of the plan, a 9th section or a 201st node',
        'make the sheet smaller',
    ),
}
