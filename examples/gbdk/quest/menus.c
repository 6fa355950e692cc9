/* Bank 5: the title, the menu, and the end. */
#pragma bank 5
#include "quest.h"

#define ITEMS 4
#define SLOTS 3

static uint8_t chosen, slot;

static void draw_frame(void)
{
    static uint8_t column, row;
    for (row = 0; row < ROWS; row++) {
        for (column = 0; column < COLUMNS; column++)
            draw_block(column, row, row == 0 || row == ROWS - 1 ? TREE : GRASS);
    }
    for (row = 0; row < 10; row++)
        hide_sprite(row);
}

static void show_cursor(uint8_t item, char c)
{
    gotoxy(4, 5 + item);
    putchar(c);
}

static void show_slot(void)
{
    gotoxy(13, 8);
    put_number(slot + 1);
}

static void show_items(void)
{
    gotoxy(6, 5);
    puts("GO ON");
    gotoxy(6, 6);
    puts("SAVE");
    gotoxy(6, 7);
    puts("LOAD");
    gotoxy(6, 8);
    puts("SLOT");
    show_slot();
    chosen = 0;
    show_cursor(0, '>');
}

void show_title(void) BANKED
{
    draw_frame();
    clear_status();
    gotoxy(7, 3);
    puts("QUEST");
    gotoxy(4, 8);
    puts("PRESS START");
    gotoxy(3, 10);
    puts("SELECT  GOES ON");
    choose_tune(0);
    state = TITLE;
}

void run_title(void) BANKED
{
    if (pressed & J_START)
        new_game();
    else if ((pressed & J_SELECT) && load_game(0)) {
        state = WALK;
        choose_tune(1);
        enter_screen();
    }
}

void open_menu(void) BANKED
{
    draw_frame();
    show_items();
    state = MENU;
}

static void close_menu(void)
{
    state = WALK;
    enter_screen();
}

static void menu_save(void)
{
    save_game(slot);
    close_menu();
}

static void menu_load(void)
{
    if (load_game(slot))
        close_menu();
}

static void menu_slot(void)
{
    slot++;
    if (slot >= SLOTS)
        slot = 0;
    show_slot();
}

static void (*const actions[ITEMS])(void) = { close_menu, menu_save, menu_load, menu_slot };

void run_menu(void) BANKED
{
    if (pressed & (J_UP | J_DOWN)) {
        show_cursor(chosen, ' ');
        if (pressed & J_DOWN)
            chosen++;
        else
            chosen--;
        if (chosen >= ITEMS)
            chosen = 0;
        show_cursor(chosen, '>');
    }
    if (pressed & J_A) {
        uint8_t now = chosen;
        if (now < ITEMS)
            actions[now]();
    }
}

void show_end(uint8_t won) BANKED
{
    draw_frame();
    clear_status();
    gotoxy(5, 5);
    if (won)
        puts("YOU ARE KING");
    else
        puts("GAME OVER");
    gotoxy(5, 8);
    puts("GOLD");
    gotoxy(10, 8);
    put_number(player.gold);
    choose_tune(2);
    state = won ? WON : OVER;
}
