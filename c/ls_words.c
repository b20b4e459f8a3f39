/* The words of docs/REFUSALS.md, column "When"; where a number has several lines there, they are joined by "; or ". The tests compare the two. */
#include "ls_plan.h"

const char *ls_words(uint64_t number) {
    switch (number) {
    case 0: return "done";
    case 1: return "more than 4,096 columns";
    case 2: return "the sibling mark is not 0, 1 or 2";
    case 3: return "the room limit is above 2^40";
    case 4:
        return "there are not n + 1 starts, or the first is not 0; or the starts say that the rows of a column end before they begin; or the last start is "
               "not the number of rows";
    case 5: return "a row is at or above the diagonal (not greater than its column), or greater than n";
    case 6: return "a row is not greater than the row before it in its column";
    case 7:
        return "a slice is shorter than its fixed length: parents, order and pops n each, factor starts n + 1, work 8n + 8; in a run columns, pops and "
               "stack list n each; the listing's output 24,576 bytes";
    case 8: return "the factor rows do not fit (in the check: the rows of the plan's lists); or more than 4,096 factor rows (for the call: rows of the plan's lists)";
    case 9: return "the peak is above the job's limit";
    case 10: return "the byte slice is too short for the key or the plan";
    case 11: return "the plan does not begin with this job's key";
    case 12: return "the bytes end inside a number, or before it";
    case 13: return "a number has a seventh group, or could be written shorter";
    case 14: return "a number is outside the range of its field; or the step's column is not 1 to n";
    case 15: return "bytes follow the peak";
    case 16: return "a column is done twice";
    case 17: return "a column's list is not its rows of fill";
    case 18: return "a subtree does not take consecutive steps with its top last";
    case 19: return "a step's pops are not its column's number of children";
    case 20: return "the declared peak is not the peak of the plan's order";
    case 21: return "the step pops more updates than are held";
    case 22: return "the front has no place for some row of a popped update";
    case 23: return "the step would use more room than the caller gave";
    case 24: return "updates are left after the last step";
    case 25:
        return "a line is missing, has no newline, or is not decimals (no leading zero, at most 13 digits) with one space between; line 1 does not hold two "
               "or three of them; a row line does not list as many rows as it says; or text follows the last line";
    case 26: return "more than 8,192 bytes of text; or more than 256 columns; or more than 2,048 pattern rows up to this line (for the call: in the key)";
    case 27: return "the key is not the whole key of a job that passes 1 to 6";
    case LS_NO_MEMORY: return "no memory could be had";
    default: return "no refusal has this number";
    }
}
